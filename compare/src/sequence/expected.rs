//! What an update and a solve must answer. A solve is the Rust's own, on a copy; an update is the Rust's steps, called one
//! by one level by level, with document 01's questions where they stand in that order.

use crate::boundary::kernels::Refused;
use crate::build::expected;
use crate::build::hierarchy::Hierarchy;
use crate::build::problem::Problem;
use crate::csr::Arrays;
use multigrid::{
    LinearSolveReport, LinearSolverOptions, LinearSolverStatus, MultigridLevelStatistics,
};
use oracle::MultigridLevelStatistics as Counted;
use oracle::{AlgebraicMultigrid, LinearAlgebraError, MultigridOptions};

pub struct Solved {
    pub answer: Result<LinearSolveReport, Refused>,
    /// The solution; as it was where the solve is refused.
    pub x: Vec<f64>,
    /// The sweeps that the Rust counted in it on each level, before and after corrections in one number; none where it is refused.
    pub sweeps: Vec<u64>,
}

/// The sweeps of one visit at that depth before its correction and after it, of a level that is not the last: document 01's counts.
pub fn sweeps_at(options: &MultigridOptions, depth: usize) -> (u64, u64) {
    let most = options.max_sweeps;
    let extra = options
        .sweep_level_multiplier
        .saturating_mul(depth.saturating_sub(1));
    let (pre, post) = match (depth, options.pre_sweeps) {
        (0, _) => (0, options.finest_sweeps),
        (_, 0) => (0, options.post_sweeps.saturating_add(extra).min(most)),
        (_, pre) => (
            pre.saturating_add(extra).min(most),
            options.post_sweeps.saturating_add(extra).min(most),
        ),
    };
    (pre as u64, post as u64)
}

/// The Rust's solve. What it counts is added to the statistics only where it accepts; they stop at the end of u64. It does not tell
/// sweeps before a correction from those after it: each iteration visits each level once, so that so many times the counts of
/// its depth are due, and none on the last level.
pub fn solve(
    problem: &Problem,
    theirs: &mut AlgebraicMultigrid,
    rhs: &[f64],
    x: &[f64],
    options: LinearSolverOptions,
    statistics: &mut [MultigridLevelStatistics],
) -> Solved {
    let before = theirs.statistics().to_vec();
    let mut y = x.to_vec();
    let answer = theirs.solve(
        rhs,
        &mut y,
        oracle::LinearSolverOptions {
            absolute_tolerance: options.absolute_tolerance,
            relative_tolerance: options.relative_tolerance,
            max_iterations: options.max_iterations as usize,
        },
    );
    match answer {
        Ok(report) => {
            let levels = before.iter().zip(theirs.statistics());
            let made = |(before, after): (&Counted, &Counted)| {
                after.smoothing_sweeps - before.smoothing_sweeps
            };
            let sweeps = levels.clone().map(made).collect();
            let last = before.len() - 1;
            for (depth, ((before, after), record)) in levels.zip(statistics).enumerate() {
                let add = |counter: &mut u64, more: u64| *counter = counter.saturating_add(more);
                let (pre, post) = match depth {
                    depth if depth == last => (0, 0),
                    _ => sweeps_at(&problem.options, depth),
                };
                let times = report.iterations as u64;
                add(&mut record.visits, after.visits - before.visits);
                add(&mut record.pre_sweeps, times * pre);
                add(&mut record.post_sweeps, times * post);
                add(
                    &mut record.coarse_iterations,
                    after.coarse_iterations - before.coarse_iterations,
                );
            }
            Solved {
                answer: Ok(LinearSolveReport {
                    status: match report.status {
                        oracle::LinearSolverStatus::Converged => LinearSolverStatus::Converged,
                        _ => LinearSolverStatus::MaxIterations,
                    },
                    iterations: report.iterations as u64,
                    initial_residual: report.initial_residual,
                    final_residual: report.final_residual,
                    relative_residual: report.relative_residual,
                }),
                x: y,
                sweeps,
            }
        }
        Err(error) => Solved {
            answer: Err((number_of(&error), 0, 0)),
            x: x.to_vec(),
            sweeps: Vec::new(),
        },
    }
}

/// The question that an error of a solve answers with "no".
fn number_of(error: &LinearAlgebraError) -> u64 {
    match error {
        LinearAlgebraError::DimensionMismatch { .. } => 20,
        LinearAlgebraError::NonFiniteValue { .. } => 28,
        LinearAlgebraError::Breakdown { reason } => match *reason {
            "invalid multigrid solve inputs" => 21,
            "non-finite multigrid normalization" => 22,
            "non-finite multigrid residual" => 23,
            "non-finite coarse solution" => 24,
            "non-finite multigrid smoother output" => 25,
            "non-finite multigrid correction product" => 26,
            "non-finite multigrid correction scale" => 27,
            "zero flexible GCR correction image" => 29,
            "non-finite flexible GCR direction" => 30,
            _ => 0,
        },
        _ => 0,
    }
}

/// Questions 31 and 10, then the levels.
pub fn update(
    problem: &Problem,
    hierarchy: &Hierarchy,
    held: &Arrays,
    arrays: &Arrays,
) -> Result<Hierarchy, Refused> {
    let same = arrays.offsets == held.offsets
        && arrays.columns == held.columns
        && arrays.values.len() == arrays.columns.len();
    if !same {
        return Err((31, 0, 0));
    }
    let matrix = Arrays {
        rows: held.rows,
        ..arrays.clone()
    };
    let matrix = matrix.container().map_err(|number| (number, 0, 0))?;
    if !matrix.is_symmetric(expected::TOLERANCE) {
        return Err((10, 0, 0));
    }
    expected::refresh(&problem.options, hierarchy, matrix)
}
