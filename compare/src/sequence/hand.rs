//! Sequences that random ones do not meet: the quotient of a correction that is not finite (27), an update whose DIC
//! reciprocal is not (17), updates that are refused below the finest level, and sweeps on eight levels.

use super::Call;
use crate::build::expected;
use crate::build::hand::{shrinking, small, small_coarse_pivot, steep, weakening};
use crate::build::problem::{Lent, Problem};
use crate::csr::Arrays;
use multigrid::LinearSolverOptions;
use oracle::{MultigridCoarseSolver, MultigridOptions, MultigridResidualNorm, MultigridSmoother};

type Sequence = (&'static str, Problem, Vec<Call>);

/// Those that stand in the list for a replay too.
pub fn listed() -> Vec<Sequence> {
    vec![infinite_quotient(), small_pivot()]
}

pub fn sequences() -> Vec<Sequence> {
    [listed(), refused_below(), vec![one_level()], deep()].concat()
}

/// The stores that its build asks for.
fn lent(mut problem: Problem) -> Problem {
    problem.lent = Lent::PLENTY;
    let charges = expected::build(&problem).charges;
    let last = charges.last().copied().unwrap_or_default();
    problem.lent = Lent::of(last, problem.options.max_levels);
    problem
}

fn cholesky() -> MultigridOptions {
    MultigridOptions {
        coarse_solver: MultigridCoarseSolver::Cholesky,
        ..MultigridOptions::default()
    }
}

/// Six rows that are not definite, on which the correction's products with its image cancel exactly, beside two rows whose
/// product is 2^-1060: the denominator is tiny and the numerator is not.
fn infinite_quotient() -> Sequence {
    let offsets = vec![0, 3, 8, 14, 18, 21, 26, 28, 30];
    let columns = vec![
        0, 1, 2, 0, 1, 2, 3, 5, 0, 1, 2, 3, 4, 5, 1, 2, 3, 5, 2, 4, 5, 1, 2, 3, 4, 5, 6, 7, 6, 7,
    ];
    let values = vec![
        2.0, -1.0, -0.5, -1.0, 4.0, 0.5, 2.0, 2.0, -0.5, 0.5, 2.0, -2.0, -1.0, 2.0, 2.0, -2.0, 4.0,
        2.0, -1.0, 1.0, -0.5, 2.0, 2.0, 2.0, -0.5, 4.0, 1.0, -0.5, -0.5, 1.0,
    ];
    let problem = lent(Problem {
        arrays: Arrays {
            rows: 8,
            offsets,
            columns,
            values,
        },
        weights: None,
        options: MultigridOptions {
            smoother: MultigridSmoother::GaussSeidel,
            residual_norm: MultigridResidualNorm::AbsoluteL2,
            post_sweeps: 1,
            coarsest_cells: 1,
            max_levels: 20,
            merge_levels: 1,
            krylov_dimension: 0,
            ..cholesky()
        },
        cap: 0,
        lent: Lent::PLENTY,
    });
    let tiny = f64::powi(2.0, -530);
    let solve = Call::Solve {
        rhs: vec![-1.0, -1.0, 1.0, 1.0, 0.0, 0.0, tiny, tiny],
        x: vec![0.0; 8],
        options: LinearSolverOptions {
            absolute_tolerance: 0.0,
            relative_tolerance: 0.0,
            max_iterations: 1,
        },
    };
    ("hand-27", problem, vec![solve.clone(), solve])
}

/// A path of four rows; the update's first pivot leaves 2^-1052 of the second, whose reciprocal is infinite. The solves
/// before and after are the same.
fn small_pivot() -> Sequence {
    let arrays = Arrays {
        rows: 4,
        offsets: vec![0, 2, 4, 6, 8],
        columns: vec![0, 1, 0, 1, 2, 3, 2, 3],
        values: vec![2.0, -1.0, -1.0, 2.0, 2.0, -1.0, -1.0, 2.0],
    };
    let mut refused = arrays.clone();
    let coupling = f64::powi(2.0, -500);
    let own = f64::powi(2.0, -1000) * (1.0 + f64::EPSILON);
    refused.values[..4].copy_from_slice(&[1.0, coupling, coupling, own]);
    let weights = vec![0.0, 1.0, 1.0, 0.0, 0.0, 1.0, 1.0, 0.0];
    let options = MultigridOptions {
        coarsest_cells: 1,
        ..cholesky()
    };
    refreshed("hand-17", arrays, Some(weights), options, refused)
}

/// A build; then a solve, an update that is refused, the same solve, an update to twice the values, and a solve.
fn refreshed(
    name: &'static str,
    arrays: Arrays,
    weights: Option<Vec<f64>>,
    options: MultigridOptions,
    refused: Arrays,
) -> Sequence {
    let mut doubled = arrays.clone();
    doubled.values.iter_mut().for_each(|value| *value *= 2.0);
    let rows = arrays.rows;
    let solve = Call::Solve {
        rhs: (1..=rows).map(|row| row as f64).collect(),
        x: vec![0.0; rows],
        options: LinearSolverOptions::default(),
    };
    let calls = vec![
        solve.clone(),
        Call::Update(refused),
        solve.clone(),
        Call::Update(doubled),
        solve,
    ];
    let problem = lent(Problem {
        arrays,
        weights,
        options,
        cap: 0,
        lent: Lent::PLENTY,
    });
    (name, problem, calls)
}

/// One level, whose factor is made of the lower values: its two sides differ, and differ otherwise after the update.
fn one_level() -> Sequence {
    let sides = |lower: f64| small([[4.0, -2.0], [lower, 2.0]]);
    let solve = Call::Solve {
        rhs: vec![2.0, 1.0],
        x: vec![0.0; 2],
        options: LinearSolverOptions::default(),
    };
    let calls = vec![
        solve.clone(),
        Call::Update(sides(-2.0 + 1e-12)),
        solve.clone(),
        Call::Update(sides(-2.0 - 2e-12)),
        solve,
    ];
    let problem = lent(Problem {
        arrays: sides(-2.0 - 1e-13),
        weights: Some(vec![0.0, 1.0, 1.0, 0.0]),
        options: cholesky(),
        cap: 0,
        lent: Lent::PLENTY,
    });
    ("hand-one-level", problem, calls)
}

/// A path of 128 rows, which is halved seven times: without sweeps before a correction, and with two and more of them. Some solves make
/// no iteration, some two, some as many as they need.
fn deep() -> Vec<Sequence> {
    const ROWS: usize = 128;
    let (mut offsets, mut columns, mut values) = (vec![0], Vec::new(), Vec::new());
    for row in 0..ROWS {
        for column in row.saturating_sub(1)..=(row + 1).min(ROWS - 1) {
            columns.push(column as u32);
            values.push(if column == row { 2.25 } else { -1.0 });
        }
        offsets.push(columns.len() as u32);
    }
    let arrays = Arrays {
        rows: ROWS,
        offsets,
        columns,
        values,
    };
    let solve = |max_iterations, absolute_tolerance| Call::Solve {
        rhs: (1..=ROWS).map(|row| row as f64).collect(),
        x: vec![0.0; ROWS],
        options: LinearSolverOptions {
            absolute_tolerance,
            relative_tolerance: 1e-8,
            max_iterations,
        },
    };
    let calls = [solve(2, 0.0), solve(100, 0.0), solve(2, f64::MAX)];
    let one = |name, pre_sweeps| {
        let options = MultigridOptions {
            pre_sweeps,
            max_sweeps: 6,
            coarsest_cells: 1,
            merge_levels: 1,
            ..cholesky()
        };
        let problem = lent(Problem {
            arrays: arrays.clone(),
            weights: None,
            options,
            cap: 0,
            lent: Lent::PLENTY,
        });
        (name, problem, calls.to_vec())
    };
    vec![
        one("hand-deep-no-pre-sweeps", 0),
        one("hand-deep-pre-sweeps", 2),
    ]
}

/// The builds that are refused on level 1, as updates of one that is not; and 18, of the values of that level.
fn refused_below() -> Vec<Sequence> {
    use MultigridSmoother::{DicGaussSeidel, GaussSeidel};
    let pair = small([[4.0, -2.0], [-2.0, 2.0]]);
    let huge = small([[f64::MAX, -1.0], [-1.0, f64::MAX]]);
    let mut weak = weakening();
    for value in &mut weak.values {
        *value = if *value == 2.0 { 0.25 } else { *value };
    }
    let (pivot, weights) = small_coarse_pivot();
    let ordinary = Arrays {
        values: vec![4.0, -3.0, 0.25, -3.0, 4.0, 0.25, 1.0, 0.0, 0.0, 1.0],
        ..pivot.clone()
    };
    let one = |name, arrays, weights, smoother, refused| {
        refreshed(name, arrays, weights, steep(smoother), refused)
    };
    vec![
        one("hand-18", pair.clone(), None, GaussSeidel, huge),
        one("hand-13-on-level-1", pair, None, GaussSeidel, shrinking()),
        one(
            "hand-16-on-level-1",
            weak,
            None,
            DicGaussSeidel,
            weakening(),
        ),
        one(
            "hand-17-on-level-1",
            ordinary,
            Some(weights),
            DicGaussSeidel,
            pivot,
        ),
    ]
}
