//! Compares the proved functions with the Rust, bit for bit. `compare/run` builds and starts it.

mod acceleration;
mod aggregation;
mod agreement;
mod build;
mod capped;
mod classes;
mod coarse;
mod csr;
mod cycle;
mod faces;
mod float;
mod galerkin;
mod load;
mod matrices;
mod matrix;
mod measure;
mod numbers;
mod options;
mod press;
mod report;
mod sequence;
mod smoother;
mod stores;
mod vector;
mod worked;

use compare::{boundary, pattern, random};
use random::Random;
use report::Report;
use std::process::ExitCode;

const SEED: u64 = 0x0f17_e2c4_ca6e_5eed;

/// How many cases to draw.
#[derive(Clone, Copy)]
pub enum Effort {
    Quick,
    Long,
}

impl Effort {
    pub fn times(self, quick: u64, long: u64) -> u64 {
        match self {
            Self::Quick => quick,
            Self::Long => long,
        }
    }
}

type Comparison = fn(&mut Report, &mut Random, Effort);

/// In the order in which they draw their cases.
const COMPARISONS: &[(&str, Comparison)] = &[
    ("boundary", |report, _, _| agreement::compare(report)),
    ("oracle", |report, _, _| worked::compare(report)),
    ("float", float::compare),
    ("vector", vector::compare),
    ("options", options::compare),
    ("aggregation", aggregation::compare),
    ("galerkin", galerkin::compare),
    ("matrix", matrix::compare),
    ("smoother", smoother::compare),
    ("coarse", coarse::compare),
    ("measure", measure::compare),
    ("cycle", cycle::compare),
    ("acceleration", acceleration::compare),
    ("csr", csr::compare),
    ("faces", faces::compare),
    ("load", load::compare),
    ("build", build::compare),
    ("sequence", sequence::compare),
    ("damage", sequence::damage::compare),
    ("unscaled", sequence::compare_unscaled),
    ("capped", capped::compare),
    ("empty", sequence::empty::compare),
    ("press", press::compare),
];

struct Arguments {
    effort: Effort,
    seed: u64,
    /// The comparison that is run alone, if one is.
    only: Option<String>,
    /// Nothing is compared, but a list of builds is written, with so many of each kind of answer.
    list: Option<u64>,
    /// The same of sequences.
    sequences: Option<u64>,
    /// Nothing is compared, but what the program `press` must print for standard input is printed.
    press: bool,
}

fn main() -> ExitCode {
    match arguments() {
        Ok(Arguments {
            list: Some(each),
            seed,
            ..
        }) => {
            let each = each.try_into().unwrap_or(usize::MAX);
            print!("{}", build::list::write(&mut Random::new(seed), each));
            ExitCode::SUCCESS
        }
        Ok(Arguments {
            sequences: Some(each),
            seed,
            ..
        }) => {
            let each = each.try_into().unwrap_or(usize::MAX);
            print!("{}", sequence::list::write(&mut Random::new(seed), each));
            ExitCode::SUCCESS
        }
        Ok(Arguments { press: true, .. }) => match press::printed() {
            Some(text) => {
                print!("{text}");
                ExitCode::SUCCESS
            }
            None => ExitCode::FAILURE,
        },
        Ok(arguments) => run(&arguments),
        Err(sentence) => {
            eprintln!(
                "compare: {sentence}\nusage: compare [--long] [--seed NUMBER] [--only NAME] [--list NUMBER] [--list-sequences NUMBER] [--press]"
            );
            ExitCode::from(2)
        }
    }
}

fn arguments() -> Result<Arguments, String> {
    let mut arguments = Arguments {
        effort: Effort::Quick,
        seed: SEED,
        only: None,
        list: None,
        sequences: None,
        press: false,
    };
    let mut words = std::env::args().skip(1);
    while let Some(word) = words.next() {
        match word.as_str() {
            "--long" => arguments.effort = Effort::Long,
            "--seed" => arguments.seed = number(&words.next().unwrap_or_default())?,
            "--list" => arguments.list = Some(number(&words.next().unwrap_or_default())?),
            "--list-sequences" => {
                arguments.sequences = Some(number(&words.next().unwrap_or_default())?);
            }
            "--press" => arguments.press = true,
            "--only" => arguments.only = Some(known(words.next().unwrap_or_default())?),
            _ => return Err(format!("{word} is not understood")),
        }
    }
    Ok(arguments)
}

fn known(name: String) -> Result<String, String> {
    if COMPARISONS.iter().any(|comparison| comparison.0 == name) {
        Ok(name)
    } else {
        Err(format!("there is no comparison {name:?}"))
    }
}

/// Decimal, or hexadecimal after 0x, as the program prints its seed.
fn number(word: &str) -> Result<u64, String> {
    let parsed = match word.strip_prefix("0x") {
        Some(digits) => u64::from_str_radix(digits, 16),
        None => word.parse(),
    };
    parsed.map_err(|error| format!("the number {word:?}: {error}"))
}

fn run(arguments: &Arguments) -> ExitCode {
    println!("seed {:#018x}", arguments.seed);
    let mut report = Report::default();
    let mut random = Random::new(arguments.seed);
    let only = arguments.only.as_deref();
    for &(name, compare) in COMPARISONS {
        if only.is_none_or(|only| only == name) {
            compare(&mut report, &mut random, arguments.effort);
        }
    }
    classes::compare(&mut report, arguments.effort, only);
    report.print();
    if report.differences() == 0 {
        ExitCode::SUCCESS
    } else {
        ExitCode::FAILURE
    }
}
