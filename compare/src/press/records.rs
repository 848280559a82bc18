//! The records of a problem file, each with its mark.

use crate::csr::Arrays;
use multigrid::LinearSolverOptions;
use oracle::{MultigridCoarseSolver, MultigridOptions, MultigridResidualNorm, MultigridSmoother};

/// Where the enums and the yes/no of a CO record stand, its mark counted.
pub const CASE_BYTES: [usize; 4] = [2, 3, 76, 101];

/// Where its cap stands.
pub const CAP: usize = 102;

fn record(mark: &[u8; 2], parts: impl IntoIterator<Item = Vec<u8>>) -> Vec<u8> {
    let mut bytes = mark.to_vec();
    bytes.extend(parts.into_iter().flatten());
    bytes
}

fn floats(values: &[f64]) -> Vec<u8> {
    let bytes = values.iter().flat_map(|value| value.to_le_bytes());
    bytes.collect()
}

fn words(words: &[u32]) -> Vec<u8> {
    words.iter().flat_map(|word| word.to_le_bytes()).collect()
}

pub fn controls(options: &MultigridOptions, cap: u64) -> Vec<u8> {
    let counts = |counts: &[usize]| -> Vec<u8> {
        let bytes = counts
            .iter()
            .flat_map(|&count| (count as u64).to_le_bytes());
        bytes.collect()
    };
    let smoother = match options.smoother {
        MultigridSmoother::GaussSeidel => 0,
        MultigridSmoother::SymmetricGaussSeidel => 1,
        MultigridSmoother::DicGaussSeidel => 2,
    };
    let norm = match options.residual_norm {
        MultigridResidualNorm::AbsoluteL2 => 0,
        MultigridResidualNorm::NormalizedL1 => 1,
    };
    let solver = match options.coarse_solver {
        MultigridCoarseSolver::PcgDic => 0,
        MultigridCoarseSolver::Cholesky => 1,
    };
    let tolerances = [
        options.coarse_absolute_tolerance,
        options.coarse_relative_tolerance,
    ];
    record(
        b"CO",
        [
            vec![smoother, norm],
            counts(&[
                options.pre_sweeps,
                options.post_sweeps,
                options.finest_sweeps,
                options.sweep_level_multiplier,
                options.max_sweeps,
                options.coarsest_cells,
                options.max_levels,
                options.merge_levels,
                options.krylov_dimension,
            ]),
            vec![solver],
            floats(&tolerances),
            counts(&[options.coarse_max_iterations]),
            vec![u8::from(options.scale_correction)],
            cap.to_le_bytes().to_vec(),
        ],
    )
}

pub fn matrix(arrays: &Arrays) -> Vec<u8> {
    let sizes = [arrays.rows as u32, arrays.columns.len() as u32];
    record(
        b"MX",
        [
            words(&sizes),
            words(&arrays.offsets),
            words(&arrays.columns),
            floats(&arrays.values),
        ],
    )
}

pub fn weights(weights: &[f64]) -> Vec<u8> {
    record(b"FW", [floats(weights)])
}

pub fn update(values: &[f64]) -> Vec<u8> {
    record(b"UP", [floats(values)])
}

pub fn solve(options: LinearSolverOptions, rhs: &[f64], x: &[f64]) -> Vec<u8> {
    let tolerances = [options.absolute_tolerance, options.relative_tolerance];
    let limit = options.max_iterations.to_le_bytes().to_vec();
    record(b"SO", [floats(&tolerances), limit, floats(rhs), floats(x)])
}
