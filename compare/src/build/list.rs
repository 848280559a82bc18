//! A list of small builds with the answers that are due, for a program that replays them from its standard input.
//!
//! The text has numbers only, each in hexadecimal digits of lower case, and one space or one new line after each. First the
//! number of builds, 8 digits; then, for each of them,
//!
//! - how many bytes of it follow, 8 digits, so that a program can read one build at a time;
//! - rows, and how many offsets, columns and values there are; 1 if weights are given, else 0, and how many;
//! - the offsets, the columns, the bits of the values, the bits of the weights;
//! - the 16 controls in the order of options.rs without `profile`: enums by their place there from 0, yes as 1, tolerances as
//!   bits; then the cap on aggregates;
//! - how many words, floats and words of statistics, five to a record, are lent;
//! - the answer: 0 or the question's number, its level, its row, the levels built;
//! - the rows of each of these levels;
//! - the checksum of an accepted build over the view that stands in the stores: of each level its rows, 1 if it is the
//!   last, its coupled rows if it is the last, else 0, and all its lists of words; then the bits of all floats, level by
//!   level, and of the row sums. It is the sum, modulo 2^64, of the sums of the first numbers, one for each number.
//!   Refused, it is 0.

use super::expected;
use super::hand;
use super::problem::Problem;
use super::{class, told};
use crate::random::Random;
use oracle::{MultigridCoarseSolver, MultigridOptions, MultigridResidualNorm, MultigridSmoother};
use std::collections::BTreeMap;
use std::fmt::Write;

/// What a replay has room for.
const ENTRIES: usize = 120;
const WORDS: usize = 8_192;
const RECORDS: usize = 128;

/// So many problems are drawn to find those that are wanted.
const DRAWN: u64 = 100_000;

/// The list with `each` builds of every kind of answer, or as many as were found.
pub fn write(random: &mut Random, each: usize) -> String {
    let by_hand = hand::problems().into_iter().map(|(_, problem, _)| problem);
    let drawn: Vec<Problem> = (0..DRAWN).map(|_| Problem::draw(random).1).collect();
    let shaken: Vec<Problem> = (0..DRAWN / 10)
        .map(|_| Problem::with_shaken_mirrors(random))
        .collect();
    let capped: Vec<Problem> = (0..DRAWN / 10).map(|_| Problem::capped(random)).collect();
    let others = by_hand.chain(drawn).map(|problem| ("", problem));
    let shaken = shaken
        .into_iter()
        .map(|problem| ("shaken mirrors: ", problem));
    let capped = capped.into_iter().map(|problem| ("with a cap: ", problem));
    let mut found: BTreeMap<String, Vec<String>> = BTreeMap::new();
    for (kind, problem) in others
        .chain(shaken)
        .chain(capped)
        .filter(|(_, problem)| fits(problem))
    {
        let due = expected::build(&problem).answer;
        let kind = found
            .entry(format!("{kind}{}", class(told(&due))))
            .or_default();
        if kind.len() < each {
            kind.push(one_build(&problem));
        }
    }
    let builds: Vec<String> = found.into_values().flatten().collect();
    let mut text = format!("{:08x}\n", builds.len());
    for build in builds {
        write!(text, "{:08x}\n{build}", build.len()).expect("a string grows");
    }
    text
}

pub fn fits(problem: &Problem) -> bool {
    let (arrays, lent) = (&problem.arrays, &problem.lent);
    let weights = problem.weights.as_ref().map_or(0, Vec::len);
    [
        arrays.offsets.len(),
        arrays.columns.len(),
        arrays.values.len(),
        weights,
    ]
    .iter()
    .all(|&length| length <= ENTRIES)
        && lent.words <= WORDS
        && lent.floats <= WORDS
        && lent.statistics <= RECORDS
}

fn one_build(problem: &Problem) -> String {
    let mut text = arguments(problem);
    match expected::build(problem).answer {
        Err((number, level, row)) => {
            line(&mut text, [number, level, row, 0]);
            line(&mut text, [0]);
        }
        Ok(made) => {
            line(&mut text, [0, 0, 0, made.levels.len() as u64]);
            line(
                &mut text,
                made.levels.iter().map(|level| level.rows() as u64),
            );
            line(&mut text, [made.checksum()]);
        }
    }
    text
}

/// The arguments of a build, and what is lent.
pub fn arguments(problem: &Problem) -> String {
    let (arrays, lent) = (&problem.arrays, &problem.lent);
    let weights = problem.weights.as_deref().unwrap_or_default();
    let mut text = String::new();
    let sizes = [
        arrays.rows,
        arrays.offsets.len(),
        arrays.columns.len(),
        arrays.values.len(),
        usize::from(problem.weights.is_some()),
        weights.len(),
    ];
    line(&mut text, sizes.map(|size| size as u64));
    line(
        &mut text,
        arrays.offsets.iter().map(|&word| u64::from(word)),
    );
    line(
        &mut text,
        arrays.columns.iter().map(|&word| u64::from(word)),
    );
    line(&mut text, arrays.values.iter().map(|value| value.to_bits()));
    line(&mut text, weights.iter().map(|weight| weight.to_bits()));
    let controls = controls(&problem.options).into_iter();
    line(&mut text, controls.chain([problem.cap]));
    let lengths = [lent.words, lent.floats, 5 * lent.statistics];
    line(&mut text, lengths.map(|length| length as u64));
    text
}

/// Numbers in a line of their own; none makes no line.
pub fn line(text: &mut String, numbers: impl IntoIterator<Item = u64>) {
    let words: Vec<String> = numbers
        .into_iter()
        .map(|number| format!("{number:x}"))
        .collect();
    if !words.is_empty() {
        writeln!(text, "{}", words.join(" ")).expect("a string grows");
    }
}

/// The sum, modulo 2^64, of the sums of the first numbers, one for each number.
pub fn rising(numbers: impl IntoIterator<Item = u64>) -> u64 {
    let (mut sum, mut total) = (0_u64, 0_u64);
    for number in numbers {
        sum = sum.wrapping_add(number);
        total = total.wrapping_add(sum);
    }
    total
}

fn controls(options: &MultigridOptions) -> [u64; 16] {
    [
        match options.smoother {
            MultigridSmoother::GaussSeidel => 0,
            MultigridSmoother::SymmetricGaussSeidel => 1,
            MultigridSmoother::DicGaussSeidel => 2,
        },
        match options.residual_norm {
            MultigridResidualNorm::AbsoluteL2 => 0,
            MultigridResidualNorm::NormalizedL1 => 1,
        },
        options.pre_sweeps as u64,
        options.post_sweeps as u64,
        options.finest_sweeps as u64,
        options.sweep_level_multiplier as u64,
        options.max_sweeps as u64,
        options.coarsest_cells as u64,
        options.max_levels as u64,
        options.merge_levels as u64,
        options.krylov_dimension as u64,
        match options.coarse_solver {
            MultigridCoarseSolver::PcgDic => 0,
            MultigridCoarseSolver::Cholesky => 1,
        },
        options.coarse_absolute_tolerance.to_bits(),
        options.coarse_relative_tolerance.to_bits(),
        options.coarse_max_iterations as u64,
        u64::from(options.scale_correction),
    ]
}
