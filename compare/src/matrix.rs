//! The kernel of `matrix`, and its `values`, beside `SymmetricMatrix` of matrix.rs.

use crate::Effort;
use crate::boundary::kernels::{self, Entries, Refused, SymmetricMatrix};
use crate::build::expected::TOLERANCE;
use crate::build::problem::shaken;
use crate::matrices::container;
use crate::numbers::{self, DRAWS};
use crate::pattern::{self, Pattern, Shape};
use crate::random::Random;
use crate::report::Report;
use crate::stores::{Layout, Store, narrow, same_floats};
use oracle::parts::Kernel;
use oracle::{CsrMatrix, LinearAlgebraError};

pub fn compare(report: &mut Report, random: &mut Random, effort: Effort) {
    for turn in 0..effort.times(4_000, 100_000) {
        let (_, shape) = Shape::ALL[turn as usize % Shape::ALL.len()];
        let rows = numbers::rows(random);
        let pattern = shape.full(random, rows);
        one_matrix(report, random, &pattern);
    }
}

/// The places of a kernel with its image and three vectors, and where the Rust has its faces.
struct Places {
    kernel: SymmetricMatrix,
    image: Entries,
    upper: usize,
    lower: usize,
    rhs: usize,
    x: usize,
    out: usize,
    faces: Vec<(usize, usize)>,
}

fn one_matrix(report: &mut Report, random: &mut Random, pattern: &Pattern) {
    let diagonals = pattern.diagonals();
    let (name, draw) = random.pick(&DRAWS);
    let mut values = pattern.numbers(true, || finite(draw(random)));
    for &entry in &diagonals {
        values[entry] = finite(draw(random)).abs().clamp(1e-300, 1e300);
    }
    let matrix = container(pattern, values);
    let mut theirs = Kernel::new(&matrix).expect("a symmetric matrix with a positive diagonal");
    let (at, words, mut floats) = places(random, pattern, &diagonals);

    let mut image = matrix.clone();
    disturb(random, &mut image, &diagonals, &at.faces);
    mirrors(report, &at, &words, &floats, &theirs, &image);
    let told = update(report, &at, &words, &mut floats, &mut theirs, &image);
    if told.is_err() {
        theirs.update(&matrix).expect("the values of the matrix");
        let told = update(report, &at, &words, &mut floats, &mut theirs, &matrix);
        assert!(told.is_ok(), "the values of the matrix are refused");
    }
    products(report, random, name, &at, &words, &mut floats, &theirs);
}

fn finite(value: f64) -> f64 {
    if value.is_finite() { value } else { 1.0 }
}

/// Some entries take any number; at times one mirror alone, at times a little.
fn disturb(
    random: &mut Random,
    image: &mut CsrMatrix,
    diagonals: &[usize],
    faces: &[(usize, usize)],
) {
    let values = image.values_mut();
    match random.below(5) {
        0 => {
            let row = random.index(diagonals.len());
            values[diagonals[row]] = random.pick(&[
                0.0,
                -0.0,
                -1.0,
                1e-310,
                5e-324,
                f64::INFINITY,
                f64::NAN,
                1e308,
            ]);
        }
        1 if !faces.is_empty() => {
            let (upper, lower) = faces[random.index(faces.len())];
            let value = random.pick(&[0.0, -0.0, 1.0, 5e-324, f64::MAX, f64::INFINITY, f64::NAN]);
            values[upper] = value;
            if random.below(2) == 0 {
                values[lower] = random.pick(&[value, -value]);
            }
        }
        2 => {
            for &(upper, lower) in faces {
                let side = random.pick(&[upper, lower]);
                values[side] = shaken(values[side], random);
            }
        }
        _ => {
            for value in values {
                *value *= 2.0 - random.unit();
            }
        }
    }
}

fn places(
    random: &mut Random,
    pattern: &Pattern,
    diagonals: &[usize],
) -> (Places, Store<u32>, Store<f64>) {
    let (rows, entries) = (pattern.rows(), pattern.entries());
    let faces = pattern::mirrors(&pattern.offsets, &pattern.columns);
    let (mut words, mut floats) = (Layout::default(), Layout::default());
    let sizes = [rows + 1, faces.len(), rows, faces.len(), faces.len()];
    let [offsets, neighbors, owns, upper, lower] = words.place_any_order(random, sizes);
    let values = floats.place(random, entries);
    let coefficients = floats.place(random, faces.len());
    let diagonal = floats.place(random, rows);
    let inverse = floats.place(random, rows);
    let [rhs, x, out] = [(); 3].map(|()| floats.place(random, rows));
    let at = Places {
        kernel: SymmetricMatrix {
            rows,
            diagonal,
            inverse,
            offsets,
            neighbors,
            coefficients,
        },
        image: Entries {
            entries,
            diagonals: owns,
            faces: upper,
            values,
        },
        upper,
        lower,
        rhs,
        x,
        out,
        faces,
    };
    let (mut words, floats) = (words.store(random), floats.store(random));
    let starts = pattern.rows_of(at.faces.iter().map(|face| face.0));
    words.put(offsets, narrow(&starts));
    words.put(
        neighbors,
        at.faces.iter().map(|face| pattern.columns[face.0] as u32),
    );
    words.put(owns, narrow(diagonals));
    words.put(upper, at.faces.iter().map(|face| face.0 as u32));
    words.put(lower, at.faces.iter().map(|face| face.1 as u32));
    (at, words, floats)
}

/// `is_symmetric`, by the test alone, and by the one that takes the upper values.
fn mirrors(
    report: &mut Report,
    at: &Places,
    words: &Store<u32>,
    floats: &Store<f64>,
    theirs: &Kernel,
    image: &CsrMatrix,
) {
    let (faces, w, values) = (at.faces.len(), &words.words, image.values());
    let due = theirs.is_symmetric(image, TOLERANCE);
    let ours = kernels::mirrors_agree(w, values, faces, at.upper, at.lower);
    let kind = report.kind("matrix/mirrors_agree");
    report.case(kind, ours == due, || {
        format!("ours {ours} theirs {due} of {values:?}")
    });
    report.answer(if due {
        "matrix/mirrors_agree/yes"
    } else {
        "matrix/mirrors_agree/no"
    });
    // A store of its own, so that the update after it finds no coefficients.
    let mut floats = Store {
        words: floats.words.clone(),
    };
    let to = at.kernel.coefficients;
    let (ours, kept) = floats.call(&[(to, faces)], |f| {
        kernels::take_faces(w, values, f, faces, at.upper, at.lower, to)
    });
    let taken = floats.at(to, faces).iter().map(|value| value.to_bits());
    let uppers = at.faces.iter().map(|face| values[face.0].to_bits());
    let agrees = ours == due && taken.eq(uppers);
    let kind = report.kind("matrix/take_faces");
    report.case(kind, agrees, || {
        format!("ours {ours} theirs {due} of {values:?}")
    });
    outside(report, kept, "take_faces");
    report.answer(if due {
        "matrix/take_faces/yes"
    } else {
        "matrix/take_faces/no"
    });
}

/// Ours from the image in the store and from one that is given, beside the Rust's; a face that is not finite is asked of the whole
/// image before, so ours passes it.
fn update(
    report: &mut Report,
    at: &Places,
    words: &Store<u32>,
    floats: &mut Store<f64>,
    theirs: &mut Kernel,
    image: &CsrMatrix,
) -> Result<(), Refused> {
    const LEVEL: u64 = 3;
    let answer = theirs.update(image);
    let due = due(at, words, image, &answer, LEVEL);
    let mut last = Ok(());
    for name in ["update_given", "update"] {
        // Where the image is given, what stands in its place in the store plays no part.
        floats.put(
            at.image.values,
            match name {
                "update" => image.values().to_vec(),
                _ => vec![f64::NAN; image.values().len()],
            },
        );
        let start = at.kernel.coefficients;
        let written = [(start, at.kernel.inverse + at.kernel.rows - start)];
        let (ours, kept) = floats.call(&written, |f| match name {
            "update" => at.kernel.update(&words.words, f, &at.image, LEVEL),
            _ => at
                .kernel
                .update_given(&words.words, image.values(), f, &at.image, LEVEL),
        });
        let agrees =
            ours == due && (due.is_err() || updated(at, floats, theirs, image, answer.is_ok()));
        let kind = report.kind(&format!("matrix/{name}"));
        report.case(kind, agrees, || {
            format!("ours {ours:?} theirs {answer:?} of {:?}", image.values())
        });
        outside(report, kept, name);
        report.answer(&match (&due, &answer) {
            (Err((number, ..)), _) => format!("matrix/{name}/refused-{number}"),
            (Ok(()), Err(_)) => format!("matrix/{name}/face-not-finite"),
            (Ok(()), Ok(())) => format!("matrix/{name}/passed"),
        });
        last = ours;
    }
    last.and(answer.map_err(|_| (0, 0, 0)))
}

/// What document 01 answers, told from the Rust's answer: the Rust's question 12 names no row; it is the first whose diagonal is not
/// positive and finite.
fn due(
    at: &Places,
    words: &Store<u32>,
    image: &CsrMatrix,
    answer: &Result<(), LinearAlgebraError>,
    level: u64,
) -> Result<(), Refused> {
    let rows = at.kernel.rows;
    let diagonals = words.at(at.image.diagonals, rows);
    let own = |row: usize| image.values()[diagonals[row] as usize];
    let bad = (0..rows).find(|&row| !own(row).is_finite() || own(row) <= 0.0);
    match answer {
        Ok(()) | Err(LinearAlgebraError::NonFiniteValue { .. }) => Ok(()),
        Err(LinearAlgebraError::ZeroDiagonal { row }) => Err((13, level, *row as u64)),
        Err(_) => Err((12, level, bad.unwrap_or(rows) as u64)),
    }
}

/// Whether the kernel in the store is the image's and, where the Rust took the image, the Rust's.
fn updated(
    at: &Places,
    floats: &Store<f64>,
    theirs: &Kernel,
    image: &CsrMatrix,
    taken: bool,
) -> bool {
    let (rows, faces) = (at.kernel.rows, at.faces.len());
    let copied: Vec<f64> = at.faces.iter().map(|face| image.values()[face.0]).collect();
    let coefficients = floats.at(at.kernel.coefficients, faces);
    same_floats(floats.at(at.kernel.diagonal, rows), theirs.diagonal())
        && same_floats(floats.at(at.kernel.inverse, rows), theirs.inverse())
        && same_floats(coefficients, &copied)
        && (!taken || same_floats(coefficients, theirs.coefficients()))
}

fn products(
    report: &mut Report,
    random: &mut Random,
    name: &str,
    at: &Places,
    words: &Store<u32>,
    floats: &mut Store<f64>,
    theirs: &Kernel,
) {
    let rows = at.kernel.rows;
    let (kind, draw) = random.pick(&DRAWS);
    let (x, rhs) = (
        numbers::vector(random, draw, rows),
        numbers::vector(random, draw, rows),
    );
    floats.put(at.x, x.iter().copied());
    floats.put(at.rhs, rhs.iter().copied());
    let written = [(at.out, rows)];
    let w = &words.words;
    let mut due = vec![0.0; rows];
    for call in ["apply", "residual", "row_sums_into"] {
        let kept = match call {
            "apply" => {
                theirs.apply(&x, &mut due);
                floats
                    .call(&written, |f| at.kernel.apply(w, f, at.x, at.out))
                    .1
            }
            "residual" => {
                theirs.residual(&x, &rhs, &mut due);
                floats
                    .call(&written, |f| at.kernel.residual(w, f, at.x, at.rhs, at.out))
                    .1
            }
            _ => {
                theirs.row_sums_into(&mut due);
                floats
                    .call(&written, |f| at.kernel.row_sums_into(w, f, at.out))
                    .1
            }
        };
        let ours = floats.at(at.out, rows);
        let counted = report.kind(&format!("matrix/{call}/{kind}"));
        report.case(counted, same_floats(ours, &due), || {
            format!("values {name}: ours {ours:?} theirs {due:?} of x {x:?} rhs {rhs:?}")
        });
        outside(report, kept, call);
        let finite = due.iter().all(|value| value.is_finite());
        report.answer(&format!(
            "matrix/{call}/{}",
            if finite { "finite" } else { "not-finite" }
        ));
    }
}

fn outside(report: &mut Report, kept: bool, call: &str) {
    let kind = report.kind("matrix/outside-unchanged");
    report.case(kind, kept, || call.to_string());
}
