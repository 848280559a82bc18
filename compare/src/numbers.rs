//! Vectors of every kind of number, for the float kernels.

use crate::random::Random;

pub type Draw = fn(&mut Random) -> f64;

pub const DRAWS: [(&str, Draw); 8] = [
    ("ordinary", |random| random.unit()),
    ("whole", |random| {
        let size = random.below(1000) as f64;
        random.signed(size)
    }),
    ("spread", |random| {
        random.unit() * f64::powi(2.0, random.below(200) as i32 - 100)
    }),
    ("signed-zeros", |random| {
        let size = random.pick(&[0.0, 0.0, 0.0, 1.0]);
        random.signed(size)
    }),
    ("subnormals", |random| {
        let size = f64::from_bits(random.bits() >> random.within(12, 63));
        random.signed(size)
    }),
    ("huge", |random| {
        random.unit() * f64::powi(2.0, random.within(500, 1023) as i32)
    }),
    ("infinities-and-nans", |random| match random.below(100) {
        0 => f64::NAN,
        1 => f64::INFINITY,
        2 => f64::NEG_INFINITY,
        _ => random.unit(),
    }),
    ("random-bits", |random| random.pattern()),
];

pub fn vector(random: &mut Random, draw: Draw, n: usize) -> Vec<f64> {
    (0..n).map(|_| draw(random)).collect()
}

/// How many rows a matrix or a vector has: small ones often.
pub fn rows(random: &mut Random) -> usize {
    let most = random.pick(&[3, 8, 30, 30, 60, 200]);
    1 + random.index(most)
}

/// `dot` adds up blocks of so many products, and then the blocks; every other sum goes through all rows in order.
pub const BLOCK: usize = 1_024;

/// More rows than a block has, so that a sum in blocks and one that is not are two sums.
pub fn many_rows(random: &mut Random) -> usize {
    let any = BLOCK + 1 + random.index(3 * BLOCK);
    random.pick(&[BLOCK + 1, 2 * BLOCK - 1, 2 * BLOCK, 2 * BLOCK + 1, any, any])
}

/// The sum as `dot` takes it.
pub fn in_blocks(terms: &[f64]) -> f64 {
    terms
        .chunks(BLOCK)
        .map(|block| block.iter().sum::<f64>())
        .sum()
}

/// Whether the two ways of adding up give two sums.
pub fn blocks_show(terms: &[f64]) -> bool {
    let one = terms.iter().sum::<f64>();
    one.is_finite() && one.to_bits() != in_blocks(terms).to_bits()
}

pub fn products(left: &[f64], right: &[f64]) -> Vec<f64> {
    left.iter()
        .zip(right)
        .map(|(left, right)| left * right)
        .collect()
}

/// The vector, or its length where it has more numbers than a matrix that is drawn has rows: the seed repeats it.
pub fn shown(vector: &[f64]) -> String {
    match vector.len() {
        0..=200 => format!("{vector:?}"),
        length => format!("{length} numbers"),
    }
}
