//! Hand-made problems: the limits of the questions, what random ones do not reach, and the order of questions.

use super::Said;
use super::expected;
use super::problem::{Lent, Problem, arrays_of, set_diagonals, small_pivot};
use crate::csr::{Arrays, MOST_ENTRIES, MOST_ROWS};
use crate::pattern::{Pattern, Shape};
use crate::random::Random;
use oracle::{MultigridCoarseSolver, MultigridOptions, MultigridSmoother};

/// The default controls but Cholesky.
fn controls() -> MultigridOptions {
    MultigridOptions {
        coarse_solver: MultigridCoarseSolver::Cholesky,
        ..MultigridOptions::default()
    }
}

/// One cell on the coarsest level and no merging, so that two coupled rows make two levels.
pub fn steep(smoother: MultigridSmoother) -> MultigridOptions {
    MultigridOptions {
        smoother,
        coarsest_cells: 1,
        merge_levels: 1,
        ..controls()
    }
}

/// With stores that hold exactly what is asked for.
fn problem(arrays: Arrays, options: MultigridOptions) -> Problem {
    lending_enough(Problem {
        arrays,
        weights: None,
        options,
        cap: 0,
        lent: Lent::PLENTY,
    })
}

fn weighed((arrays, weights): (Arrays, Vec<f64>), options: MultigridOptions) -> Problem {
    lending_enough(Problem {
        arrays,
        weights: Some(weights),
        options,
        cap: 0,
        lent: Lent::PLENTY,
    })
}

fn lending_enough(mut problem: Problem) -> Problem {
    let last = expected::build(&problem).charges.last().copied();
    problem.lent = Lent::of(last.unwrap_or_default(), problem.options.max_levels);
    problem
}

fn pattern(shape: Shape, rows: usize) -> Pattern {
    shape.full(&mut Random::new(1), rows)
}

/// Couplings of -1 and that share of them on the diagonal.
fn laplacian(pattern: &Pattern, share: f64) -> Arrays {
    let mut values = vec![-1.0; pattern.entries()];
    set_diagonals(pattern, &mut values, share);
    arrays_of(pattern, values)
}

/// A matrix of few rows, from its full rows; zeros are no entries.
pub fn small<const N: usize>(rows: [[f64; N]; N]) -> Arrays {
    let (mut offsets, mut columns, mut values) = (vec![0], Vec::new(), Vec::new());
    for row in rows {
        for (column, value) in row.into_iter().enumerate() {
            if value != 0.0 {
                columns.push(column as u32);
                values.push(value);
            }
        }
        offsets.push(columns.len() as u32);
    }
    Arrays {
        rows: N,
        offsets,
        columns,
        values,
    }
}

fn without_entries(rows: usize) -> Arrays {
    Arrays {
        rows,
        offsets: vec![0; rows.saturating_add(1).min(MOST_ROWS + 2)],
        columns: vec![],
        values: vec![],
    }
}

/// Each with the answer that it must have.
pub fn problems() -> Vec<(&'static str, Problem, Said)> {
    let mut problems = limits();
    problems.extend(places());
    problems.extend(mirrors());
    problems.extend(stores());
    problems.extend(empty());
    problems
}

fn limits() -> Vec<(&'static str, Problem, Said)> {
    let path = |rows| laplacian(&pattern(Shape::Path, rows), 2.0);
    let dense = || {
        let side = MOST_ENTRIES.isqrt();
        let mut values = vec![-1.0; MOST_ENTRIES];
        for row in 0..side {
            values[row * side + row] = 2.0 * side as f64;
        }
        Arrays {
            rows: side,
            offsets: (0..=side).map(|row| (row * side) as u32).collect(),
            columns: (0..side).flat_map(|_| 0..side as u32).collect(),
            values,
        }
    };
    let one_more = |mut arrays: Arrays| {
        arrays.columns.push(0);
        arrays.values.push(1.0);
        *arrays.offsets.last_mut().expect("some offsets") += 1;
        arrays
    };
    let coarsest = |cells| MultigridOptions {
        coarsest_cells: cells,
        max_levels: 1,
        ..controls()
    };
    let merged = |merge_levels| MultigridOptions {
        merge_levels,
        ..controls()
    };
    vec![
        ("65536-rows", problem(path(MOST_ROWS), controls()), Ok(8)),
        (
            "65537-rows",
            problem(path(MOST_ROWS + 1), controls()),
            Err((1, 0, 0)),
        ),
        (
            "rows-that-wrap",
            problem(without_entries(usize::MAX), controls()),
            Err((1, 0, 0)),
        ),
        ("1048576-entries", problem(dense(), merged(4)), Ok(3)),
        (
            "1048577-entries",
            problem(one_more(dense()), merged(4)),
            Err((1, 0, 0)),
        ),
        (
            "256-coarsest-cells",
            problem(path(256), coarsest(256)),
            Ok(1),
        ),
        (
            "257-coupled-rows",
            problem(path(257), coarsest(256)),
            Err((14, 0, 0)),
        ),
        (
            "257-coarsest-cells",
            problem(path(257), coarsest(257)),
            Err((6, 0, 0)),
        ),
        (
            "no-diagonals",
            problem(without_entries(3), controls()),
            Err((11, 0, 0)),
        ),
    ]
}

/// Question 10: how far the two sides of a face may be apart.
fn mirrors() -> Vec<(&'static str, Problem, Said)> {
    let pair = |upper: f64, lower: f64| {
        let own = 2.0 * upper.abs().clamp(1.0, 1e300);
        Arrays {
            rows: 2,
            offsets: vec![0, 2, 4],
            columns: vec![0, 1, 0, 1],
            values: vec![own, upper, lower, own],
        }
    };
    let asked = |name, arrays, passes| {
        let said = if passes { Ok(1) } else { Err((10, 0, 0)) };
        (name, problem(arrays, controls()), said)
    };
    let most = expected::TOLERANCE;
    let unit = |value: f64| pair(value, value.next_up());
    // Row 0 finds its two neighbours equally strong, and takes the first; from row 2 its own face is the stronger.
    let tie = small([
        [4.0, -1.0, -1.0],
        [-1.0, 4.0, 0.0],
        [-1.0 - f64::EPSILON, 0.0, 4.0],
    ]);
    vec![
        asked("mirrors-apart-by-1e-12", pair(most, 0.0), true),
        asked("mirrors-apart-by-more", pair(most.next_up(), 0.0), false),
        asked("one-unit-at-8191", unit(8191.0), true),
        asked("one-unit-at-8192", unit(8192.0), false),
        asked(
            "mirrors-whose-difference-overflows",
            pair(f64::MAX, f64::MIN),
            false,
        ),
        (
            "tie-on-one-side",
            problem(tie, steep(MultigridSmoother::GaussSeidel)),
            Ok(2),
        ),
    ]
}

/// Where a refusal stands, and which comes first.
fn places() -> Vec<(&'static str, Problem, Said)> {
    use MultigridSmoother::{DicGaussSeidel, GaussSeidel};
    let mut tiny = without_entries(0);
    small_pivot(&mut tiny);
    let mut tiny_then_negative = tiny.clone();
    let after = small([[1.0, 2.0], [2.0, 1.0]]);
    tiny_then_negative.rows += after.rows;
    tiny_then_negative
        .offsets
        .extend(after.offsets[1..].iter().map(|offset| offset + 4));
    tiny_then_negative
        .columns
        .extend(after.columns.iter().map(|column| column + 2));
    tiny_then_negative.values.extend(after.values);
    // Rows 1 and 2 are coupled, and the second's pivot is 1 - 4.
    let apart = small([[1.0, 0.0, 0.0], [0.0, 1.0, 2.0], [0.0, 2.0, 1.0]]);
    let vanishing = laplacian(&pattern(Shape::Path, 2), 1.0);
    let long = laplacian(&pattern(Shape::Path, 8), 1.0);
    let merged = MultigridOptions {
        merge_levels: 4,
        ..steep(GaussSeidel)
    };
    let huge = small([[f64::MAX, -1.0], [-1.0, f64::MAX]]);
    vec![
        (
            "small-pivot",
            problem(tiny.clone(), steep(DicGaussSeidel)),
            Err((17, 0, 1)),
        ),
        (
            "small-pivot-no-dic",
            problem(tiny, steep(GaussSeidel)),
            Ok(2),
        ),
        (
            "16-before-17",
            problem(tiny_then_negative, steep(DicGaussSeidel)),
            Err((16, 0, 3)),
        ),
        ("row-of-15", problem(apart, controls()), Err((15, 0, 2))),
        (
            "12-on-level-1",
            problem(vanishing, steep(GaussSeidel)),
            Err((12, 1, 0)),
        ),
        (
            "12-on-level-3",
            problem(long.clone(), steep(GaussSeidel)),
            Err((12, 3, 0)),
        ),
        ("12-on-merged", problem(long, merged), Err((12, 1, 0))),
        ("18", problem(huge, steep(GaussSeidel)), Err((18, 0, 0))),
        (
            "13-on-level-1",
            problem(shrinking(), steep(GaussSeidel)),
            Err((13, 1, 0)),
        ),
        (
            "16-on-level-1",
            problem(weakening(), steep(DicGaussSeidel)),
            Err((16, 1, 1)),
        ),
        (
            "17-on-level-1",
            weighed(small_coarse_pivot(), steep(DicGaussSeidel)),
            Err((17, 1, 1)),
        ),
    ]
}

/// The row that both go together in is 2^-1051, and its reciprocal infinite.
pub fn shrinking() -> Arrays {
    let least = f64::powi(2.0, -1000);
    let [own, coupling] = [least * (1.0 + f64::EPSILON), -least];
    small([[own, coupling], [coupling, own]])
}

/// Rows 0 and 1 go together, and rows 2 and 3; then the diagonals are 1 and the coupling is 2.
pub fn weakening() -> Arrays {
    small([
        [10.0, -9.5, 2.0, 0.0],
        [-9.5, 10.0, 0.0, 0.0],
        [2.0, 0.0, 10.0, -9.5],
        [0.0, 0.0, -9.5, 10.0],
    ])
}

/// Rows 0 and 1 go together, and rows 2 and 3 by their weight; the next level is that of `small_pivot`, times 4 in its first row.
pub fn small_coarse_pivot() -> (Arrays, Vec<f64>) {
    let coupling = f64::powi(2.0, -499);
    let own = f64::powi(2.0, -1001) * (1.0 + f64::EPSILON);
    let arrays = Arrays {
        rows: 4,
        offsets: vec![0, 3, 5, 8, 10],
        columns: vec![0, 1, 2, 0, 1, 0, 2, 3, 2, 3],
        values: vec![
            64.0, -62.0, coupling, -62.0, 64.0, coupling, own, 0.0, 0.0, own,
        ],
    };
    let weights = vec![0.0, 1.0, 0.5, 1.0, 0.0, 0.5, 0.0, 1.0, 1.0, 0.0];
    (arrays, weights)
}

/// One word, float or record short of a path of 4: two levels, or the finest alone.
fn stores() -> Vec<(&'static str, Problem, Said)> {
    let full = problem(
        laplacian(&pattern(Shape::Path, 4), 2.0),
        steep(MultigridSmoother::GaussSeidel),
    );
    let lending = |change: fn(&mut Lent)| {
        let mut changed = full.clone();
        change(&mut changed.lent);
        changed
    };
    vec![
        ("path-of-4", full.clone(), Ok(3)),
        (
            "path-of-4-word-short",
            lending(|lent| lent.words -= 1),
            Err((9, 0, 0)),
        ),
        (
            "path-of-4-float-short",
            lending(|lent| lent.floats -= 1),
            Err((9, 0, 0)),
        ),
        (
            "path-of-4-record-short",
            lending(|lent| lent.statistics -= 1),
            Err((9, 0, 0)),
        ),
        (
            "nothing-lent",
            lending(|lent| {
                *lent = Lent {
                    words: 0,
                    floats: 0,
                    statistics: 0,
                };
            }),
            Err((9, 0, 0)),
        ),
    ]
}

/// No rows: what questions 2 and 4 ask of the arrays, and the fixed charge, of which each may be one short.
fn empty() -> Vec<(&'static str, Problem, Said)> {
    let full = problem(without_entries(0), controls());
    let changed = |change: fn(&mut Problem)| {
        let mut changed = full.clone();
        change(&mut changed);
        changed
    };
    vec![
        ("no-rows", full.clone(), Ok(0)),
        (
            "no-rows-weighed",
            changed(|problem| problem.weights = Some(vec![])),
            Ok(0),
        ),
        (
            "no-rows-one-weight",
            changed(|problem| problem.weights = Some(vec![1.0])),
            Err((4, 0, 0)),
        ),
        (
            "no-rows-one-entry",
            changed(|problem| {
                problem.arrays.columns.push(0);
                problem.arrays.values.push(1.0);
            }),
            Err((2, 0, 0)),
        ),
        (
            "no-rows-one-value",
            changed(|problem| problem.arrays.values.push(1.0)),
            Err((2, 0, 0)),
        ),
        (
            "no-rows-no-offset",
            changed(|problem| problem.arrays.offsets.clear()),
            Err((2, 0, 0)),
        ),
        (
            "no-rows-word-short",
            changed(|problem| problem.lent.words = 63),
            Err((9, 0, 0)),
        ),
        (
            "no-rows-float-short",
            changed(|problem| problem.lent.floats = problem.options.coarsest_cells.pow(2) - 1),
            Err((9, 0, 0)),
        ),
        (
            "no-rows-record-short",
            changed(|problem| problem.lent.statistics -= 1),
            Err((9, 0, 0)),
        ),
    ]
}
