//! Random symmetric patterns with values and weights.

use crate::pattern::{Pattern, Shape};
use crate::random::Random;
use oracle::CsrMatrix;

/// Whole numbers are exact up to here.
const EXACT: u64 = 1 << 53;

/// How many rows a matrix has at most that an example shows.
const SHOWN: usize = 8;

/// Draws one number of as many.
type Draw = fn(&mut Random, usize) -> f64;

const VALUES: [(&str, Draw); 7] = [
    ("ordinary", |random, _| random.unit()),
    (WHOLE, whole),
    ("spread", |random, _| {
        random.unit() * f64::powi(2.0, random.below(200) as i32 - 100)
    }),
    ("cancelling", |random, _| {
        let size = random.pick(&[1.0, 0.1, 1e300]);
        random.signed(size)
    }),
    ("huge", |random, _| random.unit() * f64::MAX),
    ("signed-zeros", |random, _| random.signed(0.0)),
    ("subnormals", |random, _| subnormal(random)),
];

const WEIGHTS: [(&str, Draw); 8] = [
    ("ordinary", |random, _| random.unit().abs()),
    ("equal", |_, _| 1.0),
    ("few", |random, _| random.pick(&[0.0, 0.5, 1.0, 2.0])),
    ("zero", |_, _| 0.0),
    ("signed-zeros", |random, _| random.signed(0.0)),
    ("subnormals", |random, _| subnormal(random)),
    ("huge", |random, _| random.unit().abs() * f64::MAX),
    ("random-bits", |random, _| random.pattern()),
];

/// Mirrors are equal, and all absolute values add up to at most 2^53.
pub const WHOLE: &str = "whole";

/// Where no weights are given.
const ABSENT: &str = "absent";

fn whole(random: &mut Random, numbers: usize) -> f64 {
    let greatest = EXACT / numbers as u64;
    let most = random.pick(&[10, 1000, greatest]);
    let size = random.within(0, most.min(greatest));
    random.signed(size as f64)
}

fn subnormal(random: &mut Random) -> f64 {
    let size = f64::from_bits(random.bits() >> random.within(12, 63));
    random.signed(size)
}

pub struct Case {
    pub shape: &'static str,
    pub values: &'static str,
    pub strengths: &'static str,
    pub matrix: CsrMatrix,
    pub weights: Option<Vec<f64>>,
}

impl Case {
    /// The shapes in turn, so that each is met.
    pub fn draw(random: &mut Random, turn: u64) -> Self {
        let (shape, drawn) = Shape::ALL[turn as usize % Shape::ALL.len()];
        let pattern = drawn.draw(random);
        Self::on(shape, &pattern, random)
    }

    /// Values, and weights or none, on a pattern.
    pub fn on(shape: &'static str, pattern: &Pattern, random: &mut Random) -> Self {
        let entries = pattern.entries();
        let (values, draw) = random.pick(&VALUES);
        let symmetric = values == WHOLE || random.below(2) == 0;
        let numbers = pattern.numbers(symmetric, || draw(random, entries));
        let given = (random.below(4) != 0).then(|| random.pick(&WEIGHTS));
        let weights = given.map(|(_, draw)| {
            let symmetric = random.below(4) != 0;
            pattern.numbers(symmetric, || draw(random, entries))
        });
        Self {
            shape,
            values,
            strengths: given.map_or(ABSENT, |given| given.0),
            matrix: container(pattern, numbers),
            weights,
        }
    }

    /// The whole pattern where it is small; else its size, and the seed repeats it.
    pub fn shown(&self) -> String {
        let (rows, entries) = (self.matrix.nrows(), self.matrix.nnz());
        let kinds = format!("{} {} {}", self.shape, self.values, self.strengths);
        if rows > SHOWN {
            return format!("{kinds}: {rows} rows, {entries} entries");
        }
        let (offsets, columns) = (self.matrix.row_offsets(), self.matrix.column_indices());
        let (values, weights) = (self.matrix.values(), &self.weights);
        format!(
            "{kinds}: offsets {offsets:?} columns {columns:?} values {values:?} weights {weights:?}"
        )
    }
}

pub fn container(pattern: &Pattern, values: Vec<f64>) -> CsrMatrix {
    let (offsets, columns) = (pattern.offsets.clone(), pattern.columns.clone());
    CsrMatrix::new(pattern.rows(), pattern.rows(), offsets, columns, values)
        .expect("a drawn pattern is a matrix")
}
