//! Hand-made inputs of the program, each with what it must print.

use super::model::{EMPTY_DRUM, ORDER_FIXED};
use super::records;
use crate::csr::Arrays;
use crate::random::Random;
use multigrid::LinearSolverOptions;
use oracle::{MultigridCoarseSolver, MultigridOptions, MultigridResidualNorm};

/// What must be printed.
pub enum Said {
    Text(String),
    /// The lines begin so; the rest is the model's.
    Starts(&'static str),
}

pub type Case = (&'static str, Vec<u8>, Said);

/// Document 01's controls for the small press.
pub fn options() -> MultigridOptions {
    MultigridOptions {
        residual_norm: MultigridResidualNorm::AbsoluteL2,
        krylov_dimension: 0,
        coarse_solver: MultigridCoarseSolver::Cholesky,
        ..MultigridOptions::default()
    }
}

fn p() -> Arrays {
    Arrays {
        rows: 2,
        offsets: vec![0, 2, 4],
        columns: vec![0, 1, 0, 1],
        values: vec![4.0, -2.0, -2.0, 2.0],
    }
}

const SOLVED: LinearSolverOptions = LinearSolverOptions {
    absolute_tolerance: 0.0,
    relative_tolerance: 0.5,
    max_iterations: 5,
};

const LINES: &str = "levels 1 rows 2
solve converged 1 4000000000000000 0000000000000000 0000000000000000
x 0 3ff0000000000000
x 1 3ff0000000000000
";

/// The lines of the small press when its level was visited so often.
fn solved(visits: u64) -> String {
    format!("{LINES}level 0 2 {visits} 0 0 0\n")
}

fn refused(number: u64) -> Said {
    Said::Text(format!("refused {number}\n"))
}

fn nothing() -> Said {
    Said::Text(String::new())
}

/// The records of the small press.
struct Small {
    co: Vec<u8>,
    mx: Vec<u8>,
    fw: Vec<u8>,
    up: Vec<u8>,
    so: Vec<u8>,
}

impl Small {
    fn new() -> Self {
        Self {
            co: records::controls(&options(), 0),
            mx: records::matrix(&p()),
            fw: records::weights(&[1.0; 4]),
            up: records::update(&[4.0, -2.0, -2.0, 2.0]),
            so: records::solve(SOLVED, &[2.0, 0.0], &[0.0; 2]),
        }
    }
}

/// Rows that nothing couples.
fn diagonal(rows: usize) -> Arrays {
    let numbers = 0..rows as u32;
    Arrays {
        rows,
        offsets: (0..=rows as u32).collect(),
        columns: numbers.collect(),
        values: vec![2.0; rows],
    }
}

/// A row for each of 64, and after that as many neighbours in a path and beyond as fit: 320 entries.
fn full() -> Arrays {
    let rows = 64;
    let mut coupled = vec![vec![]; rows];
    for reach in [1, 8] {
        for row in 0..rows - reach {
            coupled[row].push(row + reach);
            coupled[row + reach].push(row);
        }
    }
    // 64 + 126 + 112 entries; nine faces more.
    for row in 0..9 {
        coupled[row].push(row + 20);
        coupled[row + 20].push(row);
    }
    let (mut offsets, mut columns, mut values) = (vec![0], vec![], vec![]);
    for (row, others) in coupled.iter_mut().enumerate() {
        let own = others.len() as f64;
        others.push(row);
        others.sort_unstable();
        for &other in others.iter() {
            columns.push(other as u32);
            values.push(if other == row { own + 1.0 } else { -1.0 });
        }
        offsets.push(columns.len() as u32);
    }
    Arrays {
        rows,
        offsets,
        columns,
        values,
    }
}

/// So many entries in a matrix of one row, which question 3 refuses.
fn one_row(entries: usize) -> Arrays {
    Arrays {
        rows: 1,
        offsets: vec![0, entries as u32],
        columns: (0..entries as u32).collect(),
        values: vec![1.0; entries],
    }
}

fn with(record: &[u8], at: usize, bytes: &[u8]) -> Vec<u8> {
    let mut record = record.to_vec();
    record[at..at + bytes.len()].copy_from_slice(bytes);
    record
}

pub fn cases() -> Vec<Case> {
    let mut cases = orders();
    cases.extend(short());
    cases.extend(sizes());
    cases.extend(bytes());
    cases.extend(calls());
    cases.extend(caps());
    cases.extend(empty());
    cases
}

/// What comes in which order.
fn orders() -> Vec<Case> {
    let Small { co, mx, fw, up, so } = &Small::new();
    let one =
        |parts: &[&Vec<u8>]| -> Vec<u8> { parts.iter().copied().flatten().copied().collect() };
    let either = |text: String| {
        if ORDER_FIXED {
            refused(32)
        } else {
            Said::Text(text)
        }
    };
    let and_32 = |text: String| Said::Text(format!("{text}refused 32\n"));
    vec![
        ("smallpress", one(&[co, mx, so]), Said::Text(solved(1))),
        (
            "with-weights",
            one(&[co, mx, fw, so]),
            Said::Text(solved(1)),
        ),
        ("swapped", one(&[mx, co, so]), either(solved(1))),
        (
            "weights-before-controls",
            one(&[mx, fw, co, so]),
            either(solved(1)),
        ),
        ("weights-before-matrix", one(&[co, fw, mx, so]), refused(32)),
        ("weights-first", one(&[fw, co, mx, so]), refused(32)),
        ("no-call", one(&[co, mx]), nothing()),
        ("no-call-with-weights", one(&[co, mx, fw]), nothing()),
        ("no-controls", one(&[mx, so]), refused(32)),
        ("no-matrix", one(&[co, so]), refused(32)),
        ("no-controls-and-no-call", mx.clone(), refused(32)),
        ("no-matrix-and-no-call", co.clone(), refused(32)),
        ("update-before-matrix", one(&[co, up, mx]), refused(32)),
        ("solve-first", one(&[so, co, mx]), refused(32)),
        ("controls-twice", one(&[co, co, mx, so]), refused(32)),
        ("matrix-twice", one(&[co, mx, mx, so]), refused(32)),
        ("weights-twice", one(&[co, mx, fw, fw, so]), refused(32)),
        (
            "weights-after-solve",
            one(&[co, mx, so, fw]),
            and_32(solved(1)),
        ),
        (
            "weights-after-update",
            one(&[co, mx, up, fw]),
            and_32("updated\n".to_string()),
        ),
        (
            "controls-after-solve",
            one(&[co, mx, so, co]),
            and_32(solved(1)),
        ),
        (
            "matrix-after-solve",
            one(&[co, mx, so, mx, so]),
            and_32(solved(1)),
        ),
        ("empty-input", vec![], refused(32)),
        ("one-stray-byte", vec![b'C'], refused(32)),
        (
            "stray-byte-at-the-end",
            one(&[co, mx, so, &vec![b'S']]),
            and_32(solved(1)),
        ),
        (
            "stray-byte-before-the-build",
            one(&[co, mx, &vec![0]]),
            refused(32),
        ),
        (
            "unknown-mark",
            one(&[co, mx, &b"XX".to_vec(), so]),
            refused(32),
        ),
        (
            "lower-case-mark",
            one(&[co, mx, &b"so".to_vec()]),
            refused(32),
        ),
        (
            "line-feed-at-the-end",
            one(&[co, mx, so, &b"\n".to_vec()]),
            and_32(solved(1)),
        ),
    ]
}

/// Records that end too early.
fn short() -> Vec<Case> {
    let Small { co, mx, fw, up, so } = &Small::new();
    let less = |record: &[u8]| record[..record.len() - 1].to_vec();
    let bad = with(&co[..50], 2, &[9]);
    let after = |text: &str| Said::Text(format!("{text}refused 32\n"));
    let worse = records::controls(
        &MultigridOptions {
            max_levels: 0,
            ..options()
        },
        0,
    );
    vec![
        ("short-controls", less(co), refused(32)),
        ("bad-byte-in-short-controls", bad, refused(32)),
        (
            "controls-of-102-bytes",
            [&co[..102], mx, so].concat(),
            refused(32),
        ),
        ("short-matrix", [&co[..], &less(mx)].concat(), refused(32)),
        (
            "matrix-without-sizes",
            [&co[..], b"MX\x02\0\0\0\x04\0\0"].concat(),
            refused(32),
        ),
        (
            "short-weights",
            [&co[..], mx, &less(fw)].concat(),
            refused(32),
        ),
        (
            "short-update",
            [&co[..], mx, &less(up)].concat(),
            refused(32),
        ),
        (
            "short-solve",
            [&co[..], mx, &less(so)].concat(),
            refused(32),
        ),
        ("mark-alone", [&co[..], mx, b"SO"].concat(), refused(32)),
        (
            "short-solve-after-update",
            [&co[..], mx, up, &less(so)].concat(),
            after("updated\n"),
        ),
        // The build would be refused by 6, but it is not made.
        (
            "short-solve-of-a-bad-build",
            [&worse[..], mx, &less(so)].concat(),
            refused(32),
        ),
        (
            "bad-build",
            [&worse[..], mx, so, so, up, b"?"].concat(),
            refused(6),
        ),
        (
            "bad-build-at-the-end",
            [&worse[..], mx].concat(),
            refused(6),
        ),
        (
            "bad-build-and-stray-byte",
            [&worse[..], mx, b"S"].concat(),
            refused(32),
        ),
    ]
}

/// The largest matrices, and larger ones.
fn sizes() -> Vec<Case> {
    let co = records::controls(&options(), 0);
    let input = |arrays: &Arrays| {
        let zero = vec![0.0; arrays.rows];
        let mut rhs = zero.clone();
        rhs[0] = 1.0;
        let so = records::solve(SOLVED, &rhs, &zero);
        [co.clone(), records::matrix(arrays), so].concat()
    };
    let head = |rows: u32, entries: u32| {
        let sizes = [rows.to_le_bytes(), entries.to_le_bytes()].concat();
        [&co[..], b"MX", &sizes].concat()
    };
    let room = MultigridOptions {
        max_levels: 2,
        merge_levels: 4,
        coarsest_cells: 20,
        ..options()
    };
    let at = input(&full());
    let large = [&records::controls(&room, 0)[..], &at[co.len()..]].concat();
    vec![
        (
            "64-rows",
            input(&diagonal(64)),
            Said::Starts("levels 1 rows 64\nsolve converged "),
        ),
        ("65-rows", input(&diagonal(65)), refused(32)),
        (
            "64-rows-320-entries",
            large,
            Said::Starts("levels 2 rows 64\nsolve "),
        ),
        ("320-entries", input(&one_row(320)), refused(3)),
        ("321-entries", input(&one_row(321)), refused(32)),
        ("65-rows-sizes-alone", head(65, 0), refused(32)),
        ("most-rows", head(u32::MAX, 0), refused(32)),
        ("most-entries", head(1, u32::MAX), refused(32)),
        ("no-rows-321-entries", head(0, 321), refused(32)),
        (
            "89-coarsest-cells",
            controls_of(|options| options.coarsest_cells = 89),
            Said::Text(solved(1)),
        ),
        (
            "90-coarsest-cells",
            controls_of(|options| options.coarsest_cells = 90),
            refused(9),
        ),
        (
            "257-coarsest-cells",
            controls_of(|options| options.coarsest_cells = 257),
            refused(6),
        ),
        (
            "128-levels",
            controls_of(|options| options.max_levels = 128),
            Said::Text(solved(1)),
        ),
    ]
}

/// The small press with other controls.
fn controls_of(change: fn(&mut MultigridOptions)) -> Vec<u8> {
    let small = Small::new();
    let mut controls = options();
    change(&mut controls);
    [records::controls(&controls, 0), small.mx, small.so].concat()
}

/// Bytes of the controls, caps, and NaNs.
fn bytes() -> Vec<Case> {
    let Small { co, mx, fw, up, so } = &Small::new();
    let byte = |at: usize, byte: u8| [&with(co, at, &[byte])[..], mx, so].concat();
    let cap = |cap: u64| [&with(co, records::CAP, &cap.to_le_bytes())[..], mx, so].concat();
    let nan = f64::NAN.to_le_bytes();
    let text = || Said::Text(solved(1));
    let last = |record: &[u8]| with(record, record.len() - 8, &nan);
    let [smoother, norm, solver, yes] = records::CASE_BYTES;
    vec![
        ("smoother-2", byte(smoother, 2), text()),
        ("smoother-3", byte(smoother, 3), refused(32)),
        (
            "norm-1",
            byte(norm, 1),
            Said::Starts("levels 1 rows 2\nsolve converged 1 "),
        ),
        ("norm-2", byte(norm, 2), refused(32)),
        ("coarse-solver-0", byte(solver, 0), refused(7)),
        ("coarse-solver-2", byte(solver, 2), refused(32)),
        ("yes-or-no-0", byte(yes, 0), text()),
        ("yes-or-no-2", byte(yes, 2), refused(32)),
        ("cap-1", cap(1), refused(6)),
        ("cap-2", cap(2), text()),
        ("cap-65535", cap(65_535), text()),
        ("cap-65536", cap(65_536), refused(6)),
        ("cap-2-to-the-32", cap(1 << 32), refused(6)),
        ("cap-most", cap(u64::MAX), refused(6)),
        (
            "nan-tolerance-of-the-controls",
            [&with(co, 77, &nan)[..], mx, so].concat(),
            refused(6),
        ),
        ("nan-value", [&co[..], &last(mx), so].concat(), refused(12)),
        (
            "nan-coupling",
            [&co[..], &with(mx, mx.len() - 16, &nan), so].concat(),
            refused(10),
        ),
        (
            "nan-weight",
            [&co[..], mx, &last(fw), so].concat(),
            refused(5),
        ),
        (
            "nan-in-update",
            [&co[..], mx, &last(up), so].concat(),
            Said::Text(format!("refused 12\n{}", solved(1))),
        ),
        (
            "nan-start",
            [&co[..], mx, &last(so), so].concat(),
            Said::Text(format!("refused 21\n{}", solved(1))),
        ),
        (
            "nan-absolute",
            [&co[..], mx, &with(so, 2, &nan)].concat(),
            refused(21),
        ),
        (
            "offset-not-zero",
            [&co[..], &with(mx, 10, &1_u32.to_le_bytes()), so].concat(),
            refused(2),
        ),
        (
            "column-too-large",
            [&co[..], &with(mx, 34, &2_u32.to_le_bytes()), so].concat(),
            refused(3),
        ),
    ]
}

/// Updates and solves, one after another.
fn calls() -> Vec<Case> {
    let Small { co, mx, up, so, .. } = &Small::new();
    let limit = |limit: u64| with(so, 18, &limit.to_le_bytes());
    let worse = records::update(&[4.0, -2.0, -2.0, 1.0]);
    let uneven = records::update(&[4.0, -2.0, -2.5, 2.0]);
    // Four times the matrix: a quarter of the solution.
    let stiffer = records::update(&[16.0, -8.0, -8.0, 8.0]);
    let quarter = LINES.replace("3ff0000000000000", "3fd0000000000000");
    let text = |parts: &[&str]| Said::Text(parts.concat());
    let again = solved(2);
    let many = (1..=60).map(solved).collect::<Vec<_>>().concat();
    vec![
        (
            "update-alone",
            [&co[..], mx, up].concat(),
            text(&["updated\n"]),
        ),
        (
            "two-solves",
            [&co[..], mx, so, so].concat(),
            text(&[&solved(1), &again]),
        ),
        (
            "sixty-solves",
            [&co[..], mx, &so.repeat(60)].concat(),
            Said::Text(many),
        ),
        ("limit-0", [&co[..], mx, &limit(0)].concat(), refused(21)),
        (
            "limit-0-then-solve",
            [&co[..], mx, &limit(0), so].concat(),
            text(&["refused 21\n", &solved(1)]),
        ),
        (
            "limit-2-to-the-32",
            [&co[..], mx, &limit(1 << 32)].concat(),
            text(&[&solved(1)]),
        ),
        (
            "refused-update-then-solve",
            [&co[..], mx, &worse, so].concat(),
            text(&["refused 15\n", &solved(1)]),
        ),
        (
            "mirrors-refused-then-solve",
            [&co[..], mx, so, &uneven, so].concat(),
            text(&[&solved(1), "refused 10\n", &again]),
        ),
        (
            "update-then-solve",
            [&co[..], mx, &stiffer, so].concat(),
            text(&["updated\n", &quarter, "level 0 2 1 0 0 0\n"]),
        ),
        (
            "accepted-then-refused-update",
            [&co[..], mx, &stiffer, &worse, so].concat(),
            text(&["updated\n", "refused 15\n", &quarter, "level 0 2 1 0 0 0\n"]),
        ),
        (
            "limit",
            limited(),
            Said::Starts("levels 2 rows 64\nsolve limit 2 "),
        ),
        (
            "converged-at-once",
            [&co[..], mx, &records::solve(SOLVED, &[0.0; 2], &[0.0; 2])].concat(),
            text(&[
                "levels 1 rows 2\nsolve converged 0 0000000000000000 0000000000000000 0000000000000000\nx 0 0000000000000000\nx 1 0000000000000000\nlevel 0 2 0 0 0 0\n",
            ]),
        ),
    ]
}

/// Two iterations are not enough for a large system with no tolerance.
fn limited() -> Vec<u8> {
    let controls = MultigridOptions {
        max_levels: 2,
        merge_levels: 4,
        coarsest_cells: 20,
        ..options()
    };
    let mut random = Random::new(1);
    let rhs: Vec<f64> = (0..64).map(|_| random.unit()).collect();
    let options = LinearSolverOptions {
        absolute_tolerance: 0.0,
        relative_tolerance: 0.0,
        max_iterations: 2,
    };
    let so = records::solve(options, &rhs, &[0.0; 64]);
    [
        records::controls(&controls, 0),
        records::matrix(&full()),
        so,
    ]
    .concat()
}

/// A star of six rows, upward: with no cap all join the first aggregate, with one the rest stay alone. A solve of zeros shows the levels.
fn star(cap: u64, coarse_rows: u64) -> (Vec<u8>, Said) {
    let mut arrays = Arrays {
        rows: 6,
        offsets: vec![0, 6],
        columns: (0..6).collect(),
        values: vec![6.0, -1.0, -1.0, -1.0, -1.0, -1.0],
    };
    for row in 1..6 {
        arrays.columns.extend([0, row]);
        arrays.values.extend([-1.0, 2.0]);
        arrays.offsets.push(arrays.columns.len() as u32);
    }
    let controls = MultigridOptions {
        coarsest_cells: 5,
        merge_levels: 1,
        ..options()
    };
    let so = records::solve(SOLVED, &[0.0; 6], &[0.0; 6]);
    let parts = [
        records::controls(&controls, cap),
        records::matrix(&arrays),
        so,
    ];
    let zero = "0".repeat(16);
    let rows: String = (0..6).map(|row| format!("x {row} {zero}\n")).collect();
    let text = format!(
        "levels 2 rows 6\nsolve converged 0 {zero} {zero} {zero}\n{rows}level 0 6 0 0 0 0\nlevel 1 {coarse_rows} 0 0 0 0\n"
    );
    (parts.concat(), Said::Text(text))
}

fn caps() -> Vec<Case> {
    let one = |name, cap, coarse_rows| {
        let (input, said) = star(cap, coarse_rows);
        (name, input, said)
    };
    vec![
        one("star-without-a-cap", 0, 1),
        one("star-cap-2", 2, 5),
        one("star-cap-3", 3, 4),
        one("star-cap-5", 5, 2),
        one("star-cap-6", 6, 1),
    ]
}

/// A matrix of no rows.
fn empty() -> Vec<Case> {
    let co = records::controls(&options(), 0);
    let arrays = Arrays {
        rows: 0,
        offsets: vec![0],
        columns: vec![],
        values: vec![],
    };
    let mx = records::matrix(&arrays);
    let (fw, up) = (records::weights(&[]), records::update(&[]));
    let so = records::solve(SOLVED, &[], &[]);
    let bad = LinearSolverOptions {
        max_iterations: 0,
        ..SOLVED
    };
    let limit = records::solve(bad, &[], &[]);
    let zeros = "0".repeat(16);
    let lines = format!("levels 0 rows 0\nsolve converged 0 {zeros} {zeros} {zeros}\n");
    let either = |text: String| {
        if EMPTY_DRUM {
            Said::Text(text)
        } else {
            refused(8)
        }
    };
    let offset = with(&mx, 10, &7_u32.to_le_bytes());
    let large = MultigridOptions {
        coarsest_cells: 91,
        ..options()
    };
    let large = records::controls(&large, 0);
    let too_large = if EMPTY_DRUM { refused(9) } else { refused(8) };
    vec![
        ("no-rows", [&co[..], &mx].concat(), either(String::new())),
        (
            "no-rows-solve",
            [&co[..], &mx, &so].concat(),
            either(lines.clone()),
        ),
        (
            "no-rows-update-and-solve",
            [&co[..], &mx, &fw, &up, &so].concat(),
            either(format!("updated\n{lines}")),
        ),
        (
            "no-rows-limit-0",
            [&co[..], &mx, &limit, &so].concat(),
            either(format!("refused 21\n{lines}")),
        ),
        (
            "no-rows-offset-7",
            [&co[..], &offset, &so].concat(),
            refused(2),
        ),
        (
            "no-rows-91-coarsest-cells",
            [&large[..], &mx, &so].concat(),
            too_large,
        ),
    ]
}
