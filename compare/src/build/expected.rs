//! The answer that a build must give: the Rust's own steps, called one by one in the loop of hierarchy.rs, and document
//! 01's questions where they stand in that order. Questions 1 to 3 and 10 are the container's, 6 the Rust's `validate`;
//! 7, 9 and 14 are asked here, and so is 6 of the cap, with which the pairings are those of `capped.rs`. A matrix of no rows, which the Rust
//! refuses, has the answer of document 02's words.

use super::hierarchy::{Hierarchy, Level};
use super::problem::{Lent, Problem};
use crate::boundary::kernels::Refused;
use crate::capped;
use crate::coarse::{compact, packed, refused_row};
use crate::csr;
use crate::pattern;
use crate::smoother;
use oracle::parts::{self, Kernel, Terminal};
use oracle::{
    CsrMatrix, LinearAlgebraError, MultigridCoarseSolver, MultigridOptions, MultigridResidualNorm,
    MultigridSmoother, during_build,
};

type Asked<T> = Result<T, Refused>;

/// Words and floats that question 9 asks for.
#[derive(Clone, Copy, Default, PartialEq, Debug)]
pub struct Charge {
    pub words: usize,
    pub floats: usize,
}

impl Charge {
    /// Of the finest matrix.
    pub fn fixed(options: &MultigridOptions, rows: usize, entries: usize) -> Self {
        Self {
            words: 16 * rows + 12 * entries + 64,
            floats: (12 + 2 * options.krylov_dimension) * rows
                + 8 * entries
                + options.coarsest_cells * options.coarsest_cells,
        }
    }

    /// With that of one level more.
    pub fn and_level(self, rows: usize, entries: usize) -> Self {
        Self {
            words: self.words + 5 * rows + 4 * entries + 8,
            floats: self.floats + 20 * rows + 4 * entries,
        }
    }

    fn fits(self, lent: &Lent) -> bool {
        self.words <= lent.words && self.floats <= lent.floats
    }
}

/// The hierarchy or the first refusal, and every charge that was asked for on the way.
pub struct Expected {
    pub answer: Asked<Hierarchy>,
    pub charges: Vec<Charge>,
}

pub fn build(problem: &Problem) -> Expected {
    let mut charges = Vec::new();
    let answer = attempt(problem, &mut charges);
    Expected { answer, charges }
}

/// The tolerance of matrix.rs:17 and of mod.rs, where they test symmetry.
pub const TOLERANCE: f64 = 1e-12;

fn attempt(problem: &Problem, charges: &mut Vec<Charge>) -> Asked<Hierarchy> {
    let options = &problem.options;
    let matrix = problem.arrays.container().map_err(unplaced)?;
    let (rows, entries) = (matrix.nrows(), matrix.nnz());
    if let Some(weights) = &problem.weights {
        match csr::refusal(weights, entries) {
            csr::PASSED => (),
            number => return Err(unplaced(number)),
        }
    }
    ask(
        options.validate().is_ok() && capped::is_allowed(problem.cap),
        6,
    )?;
    ask(options.coarse_solver == MultigridCoarseSolver::Cholesky, 7)?;
    let fixed = Charge::fixed(options, rows, entries);
    charge(charges, fixed, &problem.lent)?;
    ask(options.max_levels <= problem.lent.statistics, 9)?;
    // Document 02, Q-7: no rows are a hierarchy of no levels, and no level is charged.
    if rows == 0 {
        return Ok(Hierarchy::default());
    }
    charge(charges, fixed.and_level(rows, entries), &problem.lent)?;
    ask(matrix.is_symmetric(TOLERANCE), 10)?;
    let (levels, kernel) = grow(problem, matrix, charges)?;
    let mut sums = vec![0.0; rows];
    if options.residual_norm == MultigridResidualNorm::NormalizedL1 {
        kernel.row_sums_into(&mut sums);
    }
    Ok(Hierarchy { levels, sums })
}

fn unplaced(number: u64) -> Refused {
    (number, 0, 0)
}

fn ask(holds: bool, number: u64) -> Asked<()> {
    if holds { Ok(()) } else { Err(unplaced(number)) }
}

/// Question 9 of one charge more.
fn charge(charges: &mut Vec<Charge>, due: Charge, lent: &Lent) -> Asked<()> {
    charges.push(due);
    ask(due.fits(lent), 9)
}

/// The loop of hierarchy.rs:54-130, with 9 before each level's 11; and the kernel of the finest level.
fn grow(
    problem: &Problem,
    matrix: CsrMatrix,
    charges: &mut Vec<Charge>,
) -> Asked<(Vec<Level>, Kernel)> {
    let (options, cap) = (problem.options, problem.cap);
    let mut levels: Vec<Level> = Vec::new();
    let mut finest = None;
    let mut current = matrix;
    let mut weights = problem.weights.clone();
    let mut stage = 0;
    loop {
        let index = levels.len() as u64;
        let kernel = kernel_of(&current, index)?;
        let terminal = few_coupled(&kernel, &options)
            || kernel.neighbors().is_empty()
            || levels.len() + 1 >= options.max_levels;
        let paired = (!terminal).then(|| pair(&current, &mut stage, weights.as_deref(), cap));
        let joined = paired.filter(|&(_, count)| count < current.nrows());
        let Some((mut map, mut count)) = joined else {
            levels.push(last_level(&current, &kernel, &options, index)?);
            return Ok((levels, finest.unwrap_or(kernel)));
        };
        let dic = dic_of(&kernel, &options, index)?;
        let (mut coarse, mut positions) = coarsened(&current, &map, count)?;
        let mut next_weights = restricted(weights.as_deref(), &positions, &coarse);
        for _ in 1..options.merge_levels {
            if few_coupled(&kernel_of(&coarse, index + 1)?, &options) {
                break;
            }
            let (next_map, next_count) = pair(&coarse, &mut stage, next_weights.as_deref(), cap);
            if next_count == count {
                break;
            }
            let (next, next_positions) = coarsened(&coarse, &next_map, next_count)?;
            for aggregate in &mut map {
                *aggregate = next_map[*aggregate];
            }
            next_weights = restricted(next_weights.as_deref(), &next_positions, &next);
            (coarse, count) = (next, next_count);
        }
        if options.merge_levels > 1 {
            (coarse, positions) = coarsened(&current, &map, count)?;
        }
        let so_far = charges.last().copied().unwrap_or_default();
        let due = so_far.and_level(coarse.nrows(), coarse.nnz());
        charge(charges, due, &problem.lent)?;
        levels.push(Level {
            links: words(&map),
            positions: words(&positions),
            dic,
            ..level_of(&current, &kernel)
        });
        finest.get_or_insert(kernel);
        (current, weights) = (coarse, next_weights);
    }
}

/// `update` of hierarchy.rs on the levels of a hierarchy, from the values of `matrix`: of each level 12 and 13, then 15, or 16
/// and 17, and 18 of the next.
pub fn refresh(
    options: &MultigridOptions,
    hierarchy: &Hierarchy,
    matrix: CsrMatrix,
) -> Asked<Hierarchy> {
    let mut levels = Vec::new();
    let mut sums = vec![0.0; matrix.nrows()];
    let mut current = matrix;
    for (index, old) in hierarchy.levels.iter().enumerate() {
        let kernel = kernel_of(&current, index as u64)?;
        if index == 0 && options.residual_norm == MultigridResidualNorm::NormalizedL1 {
            kernel.row_sums_into(&mut sums);
        }
        if old.last {
            levels.push(last_level(&current, &kernel, options, index as u64)?);
            break;
        }
        let dic = dic_of(&kernel, options, index as u64)?;
        levels.push(Level {
            links: old.links.clone(),
            positions: old.positions.clone(),
            dic,
            ..level_of(&current, &kernel)
        });
        let map: Vec<usize> = old.links.iter().map(|&link| link as usize).collect();
        let count = map.iter().max().map_or(0, |&most| most + 1);
        (current, _) = coarsened(&current, &map, count)?;
    }
    Ok(Hierarchy { levels, sums })
}

fn few_coupled(kernel: &Kernel, options: &MultigridOptions) -> bool {
    kernel.coupled_rows() <= options.coarsest_cells
}

/// By the Rust; where there is a cap, by the model of it.
fn pair(
    matrix: &CsrMatrix,
    stage: &mut usize,
    weights: Option<&[f64]>,
    cap: u64,
) -> (Vec<usize>, usize) {
    let forward = stage.is_multiple_of(2);
    *stage += 1;
    match cap {
        0 => parts::pairs(matrix, forward, weights),
        _ => capped::pairs(matrix, forward, weights, cap, &mut |_| ()),
    }
}

fn restricted(
    weights: Option<&[f64]>,
    positions: &[usize],
    coarse: &CsrMatrix,
) -> Option<Vec<f64>> {
    weights.map(|weights| parts::restrict_weights(weights, positions, coarse))
}

/// Question 18: the container asks it while a build runs.
fn coarsened(matrix: &CsrMatrix, map: &[usize], count: usize) -> Asked<(CsrMatrix, Vec<usize>)> {
    let formed = during_build(|| parts::galerkin(matrix, map, count));
    formed.map_err(|error| unplaced(number_of(&error)))
}

/// Questions 11, 12 and 13. The Rust names no row for 12: that is the first whose diagonal fails.
fn kernel_of(matrix: &CsrMatrix, level: u64) -> Asked<Kernel> {
    Kernel::new(matrix).map_err(|error| {
        let row = match error {
            LinearAlgebraError::MissingDiagonal { row }
            | LinearAlgebraError::ZeroDiagonal { row } => Some(row),
            _ => (0..matrix.nrows()).find(|&row| {
                let own = matrix.get(row, row);
                own.is_some_and(|own| !own.is_finite() || own <= 0.0)
            }),
        };
        (
            number_of(&error),
            level,
            row.map_or(u64::MAX, |row| row as u64),
        )
    })
}

/// Questions 16 and 17; zeros where the smoother needs none.
fn dic_of(kernel: &Kernel, options: &MultigridOptions, level: u64) -> Asked<Vec<f64>> {
    let mut dic = vec![0.0; kernel.diagonal().len()];
    if options.smoother == MultigridSmoother::DicGaussSeidel {
        let done = kernel.update_dic_diagonal(&mut dic);
        done.map_err(|error| smoother::refused(&error, &dic, level))?;
    }
    Ok(dic)
}

/// Questions 14 and 15.
fn last_level(
    matrix: &CsrMatrix,
    kernel: &Kernel,
    options: &MultigridOptions,
    index: u64,
) -> Asked<Level> {
    ask(few_coupled(kernel, options), 14)?;
    let offsets = matrix.row_offsets();
    let coupled: Vec<usize> = (0..matrix.nrows())
        .filter(|&row| offsets[row + 1] - offsets[row] > 1)
        .collect();
    let refused = |_| (15, index, refused_row(matrix, &coupled) as u64);
    let factor = parts::cholesky(&compact(matrix, &coupled)).map_err(refused)?;
    // The Rust's own last step takes it too, over as many rows.
    let terminal = Terminal::new(matrix, *options).map_err(|error| unplaced(number_of(&error)))?;
    assert_eq!(terminal.map_or(0, |own| own.coupled_rows()), coupled.len());
    Ok(Level {
        last: true,
        links: words(&coupled),
        dic: vec![0.0; matrix.nrows()],
        factor: packed(&factor, coupled.len()),
        ..level_of(matrix, kernel)
    })
}

/// What every level has.
fn level_of(matrix: &CsrMatrix, kernel: &Kernel) -> Level {
    let (offsets, columns) = (matrix.row_offsets(), matrix.column_indices());
    let (uppers, lowers): (Vec<usize>, Vec<usize>) =
        pattern::mirrors(offsets, columns).into_iter().unzip();
    let rows = offsets.windows(2).enumerate();
    let diagonals: Vec<usize> = rows
        .filter_map(|(row, ends)| (ends[0]..ends[1]).find(|&entry| columns[entry] == row))
        .collect();
    Level {
        offsets: words(offsets),
        columns: words(columns),
        starts: words(kernel.offsets()),
        diagonals: words(&diagonals),
        neighbors: kernel.neighbors().to_vec(),
        uppers: words(&uppers),
        lowers: words(&lowers),
        values: matrix.values().to_vec(),
        coefficients: kernel.coefficients().to_vec(),
        diagonal: kernel.diagonal().to_vec(),
        inverse: kernel.inverse().to_vec(),
        ..Level::default()
    }
}

fn words(numbers: &[usize]) -> Vec<u32> {
    numbers.iter().map(|&number| number as u32).collect()
}

/// The question that an error of the Rust answers with "no".
pub fn number_of(error: &LinearAlgebraError) -> u64 {
    match error {
        LinearAlgebraError::InvalidCsr { .. } => csr::asked(error),
        LinearAlgebraError::DimensionMismatch { .. } => 4,
        LinearAlgebraError::MissingDiagonal { .. } => 11,
        LinearAlgebraError::ZeroDiagonal { .. } => 13,
        LinearAlgebraError::NonFiniteValue { .. } => 18,
        LinearAlgebraError::Breakdown { reason } => match *reason {
            "invalid geometric multigrid face weights" => 5,
            "invalid multigrid controls" => 6,
            "empty multigrid system" => 8,
            "multigrid requires a symmetric matrix with 32-bit addressing" => 10,
            "multigrid requires positive finite diagonal coefficients" => 12,
            "non-positive multigrid coarse pivot" => 15,
            "non-positive DIC smoothing pivot" => 16,
            "non-finite DIC inverse" => 17,
            _ => 0,
        },
        _ => 0,
    }
}
