//! `coarse` beside `cholesky` and `solve_factor` of hierarchy.rs and `CoarseSystem` of coarse.rs.

use crate::Effort;
use crate::boundary::terminals::{self, Solution, Terminal, triangle};
use crate::matrices::container;
use crate::numbers::{self, DRAWS, Draw};
use crate::pattern::{Pattern, Shape};
use crate::random::Random;
use crate::report::Report;
use crate::stores::{Layout, narrow, same_floats};
use oracle::{CsrMatrix, MultigridCoarseSolver, MultigridOptions, parts};

const LEVEL: u64 = 5;

pub fn compare(report: &mut Report, random: &mut Random, effort: Effort) {
    for turn in 0..effort.times(4_000, 200_000) {
        let (_, shape) = Shape::ALL[turn as usize % Shape::ALL.len()];
        let rows = numbers::rows(random);
        let pattern = shape.full(random, rows);
        one_level(report, random, &pattern);
        let (name, draw) = random.pick(&DRAWS);
        any_factor(report, random, name, draw);
    }
}

/// A matrix whose pivots mostly pass: each diagonal is about the sum of its row.
fn one_level(report: &mut Report, random: &mut Random, pattern: &Pattern) {
    let (name, draw) = DRAWS[random.index(6)];
    let mut values = pattern.numbers(random.below(4) != 0, || draw(random));
    let share = random.pick(&[0.5, 1.0, 1.0, 1.01, 2.0, 2.0]);
    for (row, entry) in pattern.diagonals().into_iter().enumerate() {
        let own = pattern.offsets[row]..pattern.offsets[row + 1];
        values[entry] = 0.0;
        let sum: f64 = values[own].iter().map(|value| value.abs()).sum();
        values[entry] = if sum > 0.0 { sum * share } else { share };
        if !values[entry].is_finite() {
            values[entry] = f64::MAX;
        }
    }
    let matrix = container(pattern, values);
    let coupled: Vec<usize> = (0..pattern.rows())
        .filter(|&row| pattern.offsets[row + 1] - pattern.offsets[row] > 1)
        .collect();
    let factor = cholesky(report, random, name, &matrix, &coupled);
    if let Some(factor) = factor {
        solve(report, random, &matrix, &coupled, &factor);
    }
}

/// The matrix of some rows.
pub fn compact(matrix: &CsrMatrix, rows: &[usize]) -> CsrMatrix {
    let (mut offsets, mut columns, mut values) = (vec![0], Vec::new(), Vec::new());
    for &row in rows {
        for entry in matrix.row_offsets()[row]..matrix.row_offsets()[row + 1] {
            if let Ok(column) = rows.binary_search(&matrix.column_indices()[entry]) {
                columns.push(column);
                values.push(matrix.values()[entry]);
            }
        }
        offsets.push(values.len());
    }
    CsrMatrix::new(rows.len(), rows.len(), offsets, columns, values).expect("some of its rows")
}

/// Its lower triangle, row by row.
pub fn packed(lower: &[f64], n: usize) -> Vec<f64> {
    (0..n)
        .flat_map(|row| lower[row * n..][..=row].iter().copied())
        .collect()
}

/// The Rust names no row: that of the first leading block which is refused, found by halving.
pub fn refused_row(matrix: &CsrMatrix, coupled: &[usize]) -> usize {
    let (mut passed, mut refused) = (0, coupled.len());
    while refused - passed > 1 {
        let middle = passed + (refused - passed) / 2;
        match parts::cholesky(&compact(matrix, &coupled[..middle])) {
            Ok(_) => passed = middle,
            Err(_) => refused = middle,
        }
    }
    coupled[refused - 1]
}

/// The packed factor, where it passes.
fn cholesky(
    report: &mut Report,
    random: &mut Random,
    name: &str,
    matrix: &CsrMatrix,
    coupled: &[usize],
) -> Option<Vec<f64>> {
    let (rows, entries, size) = (matrix.nrows(), matrix.nnz(), coupled.len());
    let (mut words, mut floats) = (Layout::default(), Layout::default());
    let [offsets, columns, chosen] = words.place_any_order(random, [rows + 1, entries, size]);
    let level = Terminal {
        rows,
        entries,
        offsets,
        columns,
        values: floats.place(random, entries),
        size,
        coupled: chosen,
        factor: floats.place(random, triangle(size)),
    };
    let (mut words, mut floats) = (words.store(random), floats.store(random));
    words.put(offsets, narrow(matrix.row_offsets()));
    words.put(columns, narrow(matrix.column_indices()));
    words.put(chosen, narrow(coupled));
    floats.put(level.values, matrix.values().iter().copied());
    let written = [(level.factor, triangle(size))];
    let (ours, kept) = floats.call(&written, |f| level.cholesky(&words.words, f, LEVEL));

    let theirs = parts::cholesky(&compact(matrix, coupled));
    let due = theirs.map(|lower| packed(&lower, size));
    let agrees = match (&ours, &due) {
        (Ok(()), Ok(due)) => same_floats(floats.at(level.factor, triangle(size)), due),
        (&Err(told), Err(_)) => told == (15, LEVEL, refused_row(matrix, coupled) as u64),
        _ => false,
    };
    let kind = report.kind(&format!("coarse/cholesky/{name}"));
    report.case(kind, agrees, || {
        format!("ours {ours:?} theirs {due:?} of {matrix:?}")
    });
    outside(report, kept, "cholesky");
    let answer = if due.is_ok() { "passed" } else { "refused-15" };
    report.answer(&format!("coarse/cholesky/{answer}"));
    due.ok()
}

/// cycle.rs:32-42: every row by its diagonal, the coupled ones by `CoarseSystem`, and question 24.
fn solve(
    report: &mut Report,
    random: &mut Random,
    matrix: &CsrMatrix,
    coupled: &[usize],
    factor: &[f64],
) {
    let options = MultigridOptions {
        coarse_solver: MultigridCoarseSolver::Cholesky,
        coarsest_cells: usize::MAX,
        ..MultigridOptions::default()
    };
    // A matrix whose mirrors differ has no terminal level, nor one with a diagonal that has no reciprocal.
    let (Ok(kernel), Ok(mut terminal)) = (
        parts::Kernel::new(matrix),
        parts::Terminal::new(matrix, options),
    ) else {
        report.answer("coarse/solve/no-terminal");
        return;
    };
    let (rows, size) = (matrix.nrows(), coupled.len());
    let (name, draw) = random.pick(&DRAWS);
    let rhs = numbers::vector(random, draw, rows);
    let mut due: Vec<f64> = rhs
        .iter()
        .zip(kernel.inverse())
        .map(|(b, d)| b * d)
        .collect();
    if let Some(terminal) = &mut terminal {
        terminal
            .solve(&rhs, &mut due, options)
            .expect("a factor refuses nothing");
    }

    let (mut words, mut floats) = (Layout::default(), Layout::default());
    let chosen = words.place(random, size);
    let sizes = [triangle(size), rows];
    let [lower, inverse] = floats.place_any_order(random, sizes);
    let at = Solution {
        inverse,
        rhs: floats.place(random, rows),
        x: floats.place(random, rows),
        work: floats.place(random, 2 * size),
    };
    let level = Terminal {
        rows,
        entries: matrix.nnz(),
        offsets: 0,
        columns: 0,
        values: 0,
        size,
        coupled: chosen,
        factor: lower,
    };
    let (mut words, mut floats) = (words.store(random), floats.store(random));
    words.put(chosen, narrow(coupled));
    floats.put(lower, factor.iter().copied());
    floats.put(inverse, kernel.inverse().iter().copied());
    floats.put(at.rhs, rhs.iter().copied());
    let written = [(at.x, rows), (at.work, 2 * size)];
    let (ours, kept) = floats.call(&written, |f| level.solve(&words.words, f, &at));
    let finite = due.iter().all(|value| value.is_finite());
    let answer = if finite { Ok(()) } else { Err((24, 0, 0)) };
    let agrees = ours == answer && same_floats(floats.at(at.x, rows), &due);
    let kind = report.kind(&format!("coarse/solve/{name}"));
    report.case(kind, agrees, || {
        format!(
            "ours {ours:?} {:?} theirs {due:?} of {matrix:?} rhs {rhs:?}",
            floats.at(at.x, rows)
        )
    });
    outside(report, kept, "solve");
    let told = if finite { "passed" } else { "refused-24" };
    report.answer(&format!("coarse/solve/{told}"));
}

/// `solve_factor` with any triangle, also one whose diagonal has zeros.
fn any_factor(report: &mut Report, random: &mut Random, name: &str, draw: Draw) {
    let n = random.index(40);
    let factor = numbers::vector(random, draw, triangle(n));
    let (_, other) = random.pick(&DRAWS);
    let rhs = numbers::vector(random, other, n);
    let mut lower = vec![0.0; n * n];
    for row in 0..n {
        lower[row * n..][..=row].copy_from_slice(&factor[triangle(row)..][..=row]);
    }
    let mut due = vec![0.0; n];
    parts::solve_factor(&lower, &rhs, &mut due);

    let mut floats = Layout::default();
    let [l, b] = floats.place_any_order(random, [triangle(n), n]);
    let x = floats.place(random, n);
    let mut floats = floats.store(random);
    floats.put(l, factor.iter().copied());
    floats.put(b, rhs.iter().copied());
    let ((), kept) = floats.call(&[(x, n)], |f| terminals::solve_factor(f, n, l, b, x));
    let kind = report.kind(&format!("coarse/solve_factor/{name}"));
    report.case(kind, same_floats(floats.at(x, n), &due), || {
        format!(
            "ours {:?} theirs {due:?} of {factor:?} {rhs:?}",
            floats.at(x, n)
        )
    });
    outside(report, kept, "solve_factor");
}

fn outside(report: &mut Report, kept: bool, call: &str) {
    let kind = report.kind("coarse/outside-unchanged");
    report.case(kind, kept, || call.to_string());
}
