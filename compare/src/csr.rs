//! `csr` beside the container, whose `new` asks questions 1 to 3, and beside the test of weights of mod.rs: arrays that
//! pass, the same with one or two damages, and the ends of what question 1 takes.

use crate::Effort;
use crate::boundary;
use crate::pattern::Shape;
use crate::random::Random;
use crate::report::{Report, hex};
use oracle::{CsrMatrix, LinearAlgebraError};

pub const MOST_ROWS: usize = 65_536;
pub const MOST_ENTRIES: usize = 1_048_576;

/// How many numbers an example shows.
const SHOWN: usize = 16;

/// The answer of arrays that pass.
pub const PASSED: u64 = 0;

/// A matrix as it is lent: arrays of any lengths.
#[derive(Clone)]
pub struct Arrays {
    pub rows: usize,
    pub offsets: Vec<u32>,
    pub columns: Vec<u32>,
    pub values: Vec<f64>,
}

pub type Damage = fn(&mut Arrays, &mut Random);

/// Each spoils one thing, where there is one; what is spoiled may still pass.
pub const DAMAGES: [(&str, Damage); 10] = [
    ("one-offset", |arrays, random| {
        let near = arrays.columns.len() as u32 + 1;
        let inside = random.below(u64::from(near)) as u32;
        let offset = random.pick(&[0, 1, near - 1, near, u32::MAX, inside]);
        put(&mut arrays.offsets, random, offset);
    }),
    ("two-offsets-swapped", |arrays, random| {
        swap(&mut arrays.offsets, random);
    }),
    ("offset-moved-by-one", |arrays, random| {
        let by = random.pick(&[1, u32::MAX]);
        if let Some(offset) = any(&mut arrays.offsets, random) {
            *offset = offset.wrapping_add(by);
        }
    }),
    ("one-column", |arrays, random| {
        let rows = arrays.rows as u32;
        let column = random.pick(&[0, rows.wrapping_sub(1), rows, u32::MAX]);
        put(&mut arrays.columns, random, column);
    }),
    ("two-columns-swapped", |arrays, random| {
        swap(&mut arrays.columns, random);
    }),
    ("column-twice", |arrays, random| {
        if arrays.columns.len() > 1 {
            let entry = 1 + random.index(arrays.columns.len() - 1);
            arrays.columns[entry] = arrays.columns[entry - 1];
        }
    }),
    ("another-length", |arrays, random| match random.below(6) {
        0 => drop(arrays.offsets.pop()),
        1 => arrays.offsets.push(arrays.columns.len() as u32),
        2 => drop(arrays.columns.pop()),
        3 => arrays.columns.push(0),
        4 => drop(arrays.values.pop()),
        _ => arrays.values.push(1.0),
    }),
    ("an-empty-array", |arrays, random| match random.below(4) {
        0 => arrays.offsets.clear(),
        1 => arrays.columns.clear(),
        2 => arrays.values.clear(),
        _ => {
            arrays.columns.clear();
            arrays.values.clear();
        }
    }),
    ("another-row-count", |arrays, random| {
        let rows = arrays.rows;
        let ends = [0, MOST_ROWS, MOST_ROWS + 1, usize::MAX - 1, usize::MAX];
        let end = random.pick(&ends);
        arrays.rows = random.pick(&[rows.saturating_add(1), rows.saturating_sub(1), end]);
    }),
    ("rows-and-offsets-cut", |arrays, random| {
        let kept = random.index(arrays.offsets.len().max(1));
        arrays.rows = kept;
        arrays.offsets.truncate(kept + 1);
    }),
];

/// What stands in the place of one weight, and whether it still passes.
pub const WEIGHTS: [(&str, f64, bool); 9] = [
    ("minus-zero", -0.0, true),
    ("least", 5e-324, true),
    ("greatest", f64::MAX, true),
    ("nan", f64::NAN, false),
    ("minus-nan", -f64::NAN, false),
    ("infinity", f64::INFINITY, false),
    ("minus-infinity", f64::NEG_INFINITY, false),
    ("negative", -1.0, false),
    ("least-negative", -5e-324, false),
];

pub fn compare(report: &mut Report, random: &mut Random, effort: Effort) {
    for (name, arrays, said) in ends() {
        one_matrix(report, name, &arrays, Some(said));
    }
    for _ in 0..effort.times(200, 5_000) {
        let good = good(random);
        one_matrix(report, "good", &good, Some(PASSED));
        for (name, damage) in DAMAGES {
            let mut damaged = good.clone();
            damage(&mut damaged, random);
            one_matrix(report, name, &damaged, None);
            let (_, second) = random.pick(&DAMAGES);
            second(&mut damaged, random);
            one_matrix(report, "two-damages", &damaged, None);
        }
        weights(report, random);
    }
}

fn one_matrix(report: &mut Report, name: &str, arrays: &Arrays, said: Option<u64>) {
    let Arrays {
        rows,
        offsets,
        columns,
        values,
    } = arrays;
    let ours = boundary::csr::check_matrix(*rows, offsets, columns, values);
    told(
        report,
        "check_matrix",
        name,
        [ours, container(arrays)],
        said,
        || {
            format!(
                "rows {rows} offsets {} columns {} and {} values",
                shown(offsets, u32::to_string),
                shown(columns, u32::to_string),
                values.len()
            )
        },
    );
}

/// The question by which the container refuses the arrays, or zero.
fn container(arrays: &Arrays) -> u64 {
    arrays.container().err().unwrap_or(PASSED)
}

impl Arrays {
    /// The arrays in the container, or the question by which it refuses them.
    pub fn container(&self) -> Result<CsrMatrix, u64> {
        let wide = |words: &[u32]| words.iter().map(|&word| word as usize).collect();
        let (rows, values) = (self.rows, self.values.clone());
        let (offsets, columns) = (wide(&self.offsets), wide(&self.columns));
        CsrMatrix::new(rows, rows, offsets, columns, values).map_err(|error| asked(&error))
    }
}

/// The question that the container names.
pub fn asked(error: &LinearAlgebraError) -> u64 {
    let LinearAlgebraError::InvalidCsr { message } = error else {
        panic!("the container answers {error:?}");
    };
    let question = message.strip_prefix("question ");
    let number = question.and_then(|rest| rest.split(':').next());
    number
        .and_then(|number| number.parse().ok())
        .expect("the container names its question")
}

/// Rows in any shape, or a symmetric pattern.
fn good(random: &mut Random) -> Arrays {
    let (offsets, columns) = if random.below(2) == 0 {
        let pattern = random.pick(&Shape::ALL).1.draw(random);
        let words = |numbers: Vec<usize>| numbers.into_iter().map(|number| number as u32).collect();
        (words(pattern.offsets), words(pattern.columns))
    } else {
        scattered(random)
    };
    Arrays {
        rows: offsets.len() - 1,
        values: columns.iter().map(|_| random.pattern()).collect(),
        offsets,
        columns,
    }
}

/// Up to 19 rows, some without an entry, some full.
fn scattered(random: &mut Random) -> (Vec<u32>, Vec<u32>) {
    let rows = random.index(20) as u32;
    let (mut offsets, mut columns) = (vec![0], Vec::new());
    for _ in 0..rows {
        let density = random.below(5);
        columns.extend((0..rows).filter(|_| random.below(4) < density));
        offsets.push(columns.len() as u32);
    }
    (offsets, columns)
}

/// The ends of what question 1 takes, each with the answer that it must have.
fn ends() -> Vec<(&'static str, Arrays, u64)> {
    let last = |mut arrays: Arrays, column: u32| {
        *arrays.columns.last_mut().expect("some entries") = column;
        arrays
    };
    let one_more = |mut arrays: Arrays| {
        arrays.columns.push(0);
        arrays.values.push(1.0);
        *arrays.offsets.last_mut().expect("some offsets") += 1;
        arrays
    };
    let empty = Arrays {
        rows: 0,
        offsets: vec![],
        columns: vec![],
        values: vec![],
    };
    let most = even_rows(MOST_ROWS, MOST_ENTRIES / MOST_ROWS);
    vec![
        ("no-rows", even_rows(0, 0), PASSED),
        ("nothing", empty.clone(), 2),
        (
            "rows-that-wrap",
            Arrays {
                rows: usize::MAX,
                ..empty
            },
            1,
        ),
        ("65536-empty-rows", even_rows(MOST_ROWS, 0), PASSED),
        ("65537-empty-rows", even_rows(MOST_ROWS + 1, 0), 1),
        ("65536-rows", even_rows(MOST_ROWS, 1), PASSED),
        ("65537-rows", even_rows(MOST_ROWS + 1, 1), 1),
        ("1048576-entries", even_rows(1024, 1024), PASSED),
        ("1048577-entries", one_more(even_rows(1024, 1024)), 1),
        ("65536-rows-1048576-entries", most.clone(), PASSED),
        ("last-column-65536", last(most.clone(), MOST_ROWS as u32), 3),
        (
            "last-column-65535",
            last(most.clone(), MOST_ROWS as u32 - 1),
            PASSED,
        ),
        ("last-column-not-rising", last(most, 14), 3),
    ]
}

/// As many entries in each row, in the first columns.
pub fn even_rows(rows: usize, each: usize) -> Arrays {
    Arrays {
        rows,
        offsets: (0..=rows).map(|row| (row * each) as u32).collect(),
        columns: (0..rows).flat_map(|_| 0..each as u32).collect(),
        values: vec![1.0; rows * each],
    }
}

fn weights(report: &mut Report, random: &mut Random) {
    let most = random.pick(&[1, 4, 100]);
    let entries = random.index(most + 1);
    let good: Vec<f64> = (0..entries).map(|_| random.unit().abs()).collect();
    one_weights(report, "good", &good, entries, Some(PASSED));
    for (name, weight, passes) in WEIGHTS {
        let mut damaged = good.clone();
        if let Some(place) = any(&mut damaged, random) {
            *place = weight;
            let said = if passes { PASSED } else { 5 };
            one_weights(report, name, &damaged, entries, Some(said));
            one_weights(
                report,
                "damaged-and-miscounted",
                &damaged,
                entries + 1,
                Some(4),
            );
        }
    }
    let bits: Vec<f64> = good.iter().map(|_| random.pattern()).collect();
    one_weights(report, "random-bits", &bits, entries, None);
    for other in [entries + 1, entries.wrapping_sub(1), 0, usize::MAX] {
        one_weights(report, "another-count", &good, other, None);
    }
}

fn one_weights(
    report: &mut Report,
    name: &str,
    weights: &[f64],
    entries: usize,
    said: Option<u64>,
) {
    let ours = boundary::csr::check_weights(weights, entries);
    told(
        report,
        "check_weights",
        name,
        [ours, refusal(weights, entries)],
        said,
        || {
            format!(
                "entries {entries} weights {}",
                shown(weights, |&weight| hex(weight))
            )
        },
    );
}

/// mod.rs:59-72
pub fn refusal(face_weights: &[f64], entries: usize) -> u64 {
    if face_weights.len() != entries {
        return 4;
    }
    if face_weights
        .iter()
        .any(|weight| !weight.is_finite() || *weight < 0.0)
    {
        return 5;
    }
    PASSED
}

/// Where the case was made for one answer, `said` is that: it shows that the case is what its kind says.
fn told(
    report: &mut Report,
    call: &str,
    name: &str,
    [ours, theirs]: [u64; 2],
    said: Option<u64>,
    arguments: impl FnOnce() -> String,
) {
    let answer = match theirs {
        PASSED => "passes".to_string(),
        question => format!("refused-{question}"),
    };
    report.answer(&format!("csr/{call}/{answer}"));
    let kind = report.kind(&format!("csr/{call}/{name}"));
    let agrees = ours == theirs && said.is_none_or(|said| theirs == said);
    report.case(kind, agrees, || {
        format!("ours {ours} theirs {theirs} of {}", arguments())
    });
}

pub fn any<'a, T>(items: &'a mut [T], random: &mut Random) -> Option<&'a mut T> {
    match items.len() {
        0 => None,
        length => items.get_mut(random.index(length)),
    }
}

fn put(words: &mut [u32], random: &mut Random, word: u32) {
    if let Some(place) = any(words, random) {
        *place = word;
    }
}

/// Two neighbours, or any two.
fn swap(words: &mut [u32], random: &mut Random) {
    if words.len() > 1 {
        let one = random.index(words.len() - 1);
        let another = random.index(words.len());
        words.swap(one, random.pick(&[one + 1, another]));
    }
}

/// The whole array where it is short; else its length, and the seed repeats it.
fn shown<T>(items: &[T], word: impl Fn(&T) -> String) -> String {
    if items.len() > SHOWN {
        return format!("[{} numbers]", items.len());
    }
    let words: Vec<String> = items.iter().map(word).collect();
    format!("[{}]", words.join(" "))
}
