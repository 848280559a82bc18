//! `smoother` beside smoother.rs: the DIC diagonal, a sweep of each kind, and the sweeps of a smoother.

use crate::Effort;
use crate::boundary::kernels::{Refused, SymmetricMatrix};
use crate::boundary::smoothing::Sweep;
use crate::matrices::container;
use crate::numbers::{self, DRAWS, Draw};
use crate::pattern::{self, Pattern, Shape};
use crate::random::Random;
use crate::report::Report;
use crate::stores::{Layout, Store, narrow, same_floats};
use oracle::parts::Kernel;
use oracle::{LinearAlgebraError, MultigridSmoother};

const LEVEL: u64 = 6;

const SMOOTHERS: [(&str, MultigridSmoother); 3] = [
    ("GaussSeidel", MultigridSmoother::GaussSeidel),
    (
        "SymmetricGaussSeidel",
        MultigridSmoother::SymmetricGaussSeidel,
    ),
    ("DicGaussSeidel", MultigridSmoother::DicGaussSeidel),
];

pub fn compare(report: &mut Report, random: &mut Random, effort: Effort) {
    for turn in 0..effort.times(4_000, 120_000) {
        let (_, shape) = Shape::ALL[turn as usize % Shape::ALL.len()];
        let rows = numbers::rows(random);
        let pattern = shape.full(random, rows);
        one_level(report, random, &pattern);
    }
}

/// A kernel of the Rust, the same in stores, and the vectors that a sweep is given.
struct Level {
    values: &'static str,
    theirs: Kernel,
    kernel: SymmetricMatrix,
    at: Sweep,
    words: Store<u32>,
    floats: Store<f64>,
}

fn one_level(report: &mut Report, random: &mut Random, pattern: &Pattern) {
    let (values, draw) = random.pick(&DRAWS);
    let mut level = Level::new(random, pattern, values, draw);
    let dic = dic_diagonal(report, &mut level);
    // Where there is no DIC diagonal, any vector stands for it.
    let rows = level.kernel.rows;
    let (name, draw) = random.pick(&DRAWS);
    let dic = dic.unwrap_or_else(|| numbers::vector(random, draw, rows));
    level.floats.put(level.at.dic, dic.iter().copied());
    let [rhs, x] = [(); 2].map(|()| numbers::vector(random, draw, rows));
    level.floats.put(level.at.rhs, rhs.iter().copied());
    sweeps(report, &mut level, name, &dic, &rhs, &x);
    let (kind, smoother) = random.pick(&SMOOTHERS);
    let sweeps = random.below(4);
    smooth(
        report,
        &mut level,
        (kind, smoother),
        sweeps,
        (name, &dic, &rhs, &x),
    );
}

impl Level {
    /// Values as they are drawn, and a diagonal of one of several kinds.
    fn new(random: &mut Random, pattern: &Pattern, values: &'static str, draw: Draw) -> Self {
        let rows = pattern.rows();
        let unit = container(pattern, vec![1.0; pattern.entries()]);
        let mut theirs = Kernel::new(&unit).expect("the pattern of a kernel");
        let faces = pattern::mirrors(&pattern.offsets, &pattern.columns);
        let starts = pattern.rows_of(faces.iter().map(|face| face.0));
        let ends: Vec<usize> = faces.iter().map(|face| pattern.columns[face.0]).collect();
        let mut coefficients = numbers::vector(random, draw, faces.len());
        let diagonal = diagonal(random, draw, &starts, &ends, &mut coefficients);
        let inverse: Vec<f64> = diagonal.iter().map(|own| 1.0 / own).collect();
        theirs.set_values(&diagonal, &inverse, &coefficients);

        let (mut words, mut floats) = (Layout::default(), Layout::default());
        let [offsets, neighbors] = words.place_any_order(random, [rows + 1, faces.len()]);
        let sizes = [faces.len(), rows, rows, rows];
        let [coefficient, own, reciprocal, dic] = floats.place_any_order(random, sizes);
        let [rhs, x, work, correction] = [(); 4].map(|()| floats.place(random, rows));
        let (mut words, mut floats) = (words.store(random), floats.store(random));
        words.put(offsets, narrow(&starts));
        words.put(neighbors, narrow(&ends));
        floats.put(coefficient, coefficients);
        floats.put(own, diagonal);
        floats.put(reciprocal, inverse);
        Self {
            values,
            theirs,
            kernel: SymmetricMatrix {
                rows,
                diagonal: own,
                inverse: reciprocal,
                offsets,
                neighbors,
                coefficients: coefficient,
            },
            at: Sweep {
                dic,
                rhs,
                x,
                work,
                correction,
            },
            words,
            floats,
        }
    }
}

/// Any numbers; or about the sum of the row; or the same with one row alone whose pivot has no finite reciprocal.
fn diagonal(
    random: &mut Random,
    draw: Draw,
    starts: &[usize],
    ends: &[usize],
    coefficients: &mut [f64],
) -> Vec<f64> {
    let rows = starts.len() - 1;
    let form = random.below(8);
    if form == 0 {
        return numbers::vector(random, draw, rows);
    }
    let alone = (form == 1).then(|| random.index(rows));
    let share = random.pick(&[0.5, 1.0, 1.01, 1.5, 2.0, 4.0]);
    let mut diagonal = vec![0.0; rows];
    for row in 0..rows {
        for face in starts[row]..starts[row + 1] {
            let touched = alone.is_some_and(|alone| alone == row || alone == ends[face]);
            if touched {
                coefficients[face] = random.signed(0.0);
            }
            diagonal[row] += coefficients[face].abs();
            diagonal[ends[face]] += coefficients[face].abs();
        }
    }
    for own in &mut diagonal {
        *own = if *own == 0.0 { share } else { *own * share };
    }
    if let Some(row) = alone {
        // One over it overflows from 2^-1024 down.
        diagonal[row] = f64::from_bits(random.within(1, 1 << 50));
    }
    diagonal
}

/// The Rust names no row: it left the pivots, and up to the row of question 17 their reciprocals, in the vector.
fn dic_diagonal(report: &mut Report, level: &mut Level) -> Option<Vec<f64>> {
    let (rows, w) = (level.kernel.rows, &level.words.words);
    // `DicOk` has the kernel below the diagonal that is made, so that one stands where the correction will.
    let d = level.at.correction;
    let (ours, kept) = level.floats.call(&[(d, rows)], |f| {
        level.kernel.update_dic_diagonal(w, f, d, LEVEL)
    });
    let mut due = vec![0.0; rows];
    let theirs = level.theirs.update_dic_diagonal(&mut due);
    let answer = theirs.map_err(|error| refused(&error, &due, LEVEL));
    let agrees = ours == answer && (answer.is_err() || same_floats(level.floats.at(d, rows), &due));
    let kind = report.kind(&format!("smoother/update_dic_diagonal/{}", level.values));
    report.case(kind, agrees, || {
        let (own, all) = (level.theirs.diagonal(), level.theirs.coefficients());
        format!("ours {ours:?} theirs {answer:?} {due:?} of diagonal {own:?} faces {all:?}")
    });
    outside(report, kept, "update_dic_diagonal");
    report.answer(&match answer {
        Ok(()) => "smoother/update_dic_diagonal/passed".to_string(),
        Err((number, ..)) => format!("smoother/update_dic_diagonal/refused-{number}"),
    });
    answer.is_ok().then_some(due)
}

/// Question 16 or 17, and the first row that fails it in what the Rust leaves.
pub fn refused(error: &LinearAlgebraError, left: &[f64], level: u64) -> Refused {
    let LinearAlgebraError::Breakdown { reason } = error else {
        return (0, 0, 0);
    };
    let (number, row) = match *reason {
        "non-positive DIC smoothing pivot" => {
            let bad = |pivot: &f64| !pivot.is_finite() || *pivot <= 0.0;
            (16, left.iter().position(bad))
        }
        "non-finite DIC inverse" => (17, left.iter().position(|inverse| !inverse.is_finite())),
        _ => (0, None),
    };
    (number, level, row.map_or(u64::MAX, |row| row as u64))
}

/// One sweep of each kind: x, and the vector that is made beside it.
fn sweeps(report: &mut Report, level: &mut Level, name: &str, dic: &[f64], rhs: &[f64], x: &[f64]) {
    let (at, rows, w) = (&level.at, level.kernel.rows, &level.words.words);
    for call in ["forward", "symmetric", "dic_sweep"] {
        let beside = if call == "dic_sweep" {
            at.correction
        } else {
            at.work
        };
        level.floats.put(at.x, x.iter().copied());
        let written = [(at.x, rows), (beside, rows)];
        let ((), kept) = level.floats.call(&written, |f| match call {
            "dic_sweep" => level.kernel.dic_sweep(w, f, at),
            _ => level.kernel.gauss_seidel(w, f, at, call == "symmetric"),
        });
        let (mut due, mut made) = (x.to_vec(), vec![0.0; rows]);
        match call {
            "dic_sweep" => level.theirs.dic_sweep(dic, rhs, &mut due, &mut made),
            _ => {
                let symmetric = call == "symmetric";
                level
                    .theirs
                    .gauss_seidel(rhs, &mut due, &mut made, symmetric);
            }
        }
        let (ours, ours_made) = (level.floats.at(at.x, rows), level.floats.at(beside, rows));
        let agrees = same_floats(ours, &due) && same_floats(ours_made, &made);
        let kind = report.kind(&format!("smoother/{call}/{name}"));
        report.case(kind, agrees, || {
            let values = level.values;
            format!(
                "values {values}: ours {ours:?} {ours_made:?} theirs {due:?} {made:?} of rhs {rhs:?} x {x:?}"
            )
        });
        outside(report, kept, call);
        let finite = due.iter().all(|value| value.is_finite());
        let told = if finite { "finite" } else { "not-finite" };
        report.answer(&format!("smoother/{call}/{told}"));
    }
}

/// The answer, and x in any case.
fn smooth(
    report: &mut Report,
    level: &mut Level,
    (kind, smoother): (&str, MultigridSmoother),
    sweeps: u64,
    (name, dic, rhs, x): (&str, &[f64], &[f64], &[f64]),
) {
    let (at, rows, w) = (&level.at, level.kernel.rows, &level.words.words);
    level.floats.put(at.x, x.iter().copied());
    let written = [(at.x, rows), (at.work, rows), (at.correction, rows)];
    let (ours, kept) = level.floats.call(&written, |f| {
        level.kernel.smooth(w, f, at, smoother, sweeps)
    });
    let mut due = x.to_vec();
    let theirs = level
        .theirs
        .smooth(dic, smoother, rhs, &mut due, sweeps as usize);
    let answer = theirs.map_err(|_| (25, 0, 0));
    let agrees = ours == answer && same_floats(level.floats.at(at.x, rows), &due);
    let counted = report.kind(&format!("smoother/smooth/{name}"));
    report.case(counted, agrees, || {
        let (values, found) = (level.values, level.floats.at(at.x, rows));
        format!(
            "{kind} {sweeps} values {values}: ours {ours:?} {found:?} theirs {answer:?} {due:?} of rhs {rhs:?} x {x:?}"
        )
    });
    outside(report, kept, "smooth");
    let told = match answer {
        Ok(()) if sweeps == 0 => "no-sweep",
        Ok(()) => "passed",
        Err(_) => "refused-25",
    };
    report.answer(&format!("smoother/smooth/{kind}/{told}"));
}

fn outside(report: &mut Report, kept: bool, call: &str) {
    let kind = report.kind("smoother/outside-unchanged");
    report.case(kind, kept, || call.to_string());
}
