//! Measures the proved functions and the Rust in one run. `bench/run` builds and starts it.

mod build;
mod cholesky;
mod clock;
mod dot;
mod galerkin;
mod grid;
mod kernels;
mod level;
mod load;
mod measure;
mod pairs;
mod shapes;
mod solve;
mod stack;
mod sweeps;

use grid::Grid;
use measure::{Kernel, Medians, measure};
use std::process::ExitCode;

/// Of the loads.
const SEED: u64 = 1;
const SIDES: [usize; 3] = [16, 64, 256];

/// At least seven, and odd, so that a median is one of them.
const LEAST_ROUNDS: usize = 7;
const ROUNDS: usize = 21;

/// A row of the table, for grids of these sides; `most` is the greatest ratio that is wanted, if one is, from the side
/// `wanted_from` on.
struct Row {
    name: &'static str,
    most: Option<f64>,
    wanted_from: usize,
    sides: &'static [usize],
    kernel: fn(&Grid) -> Box<dyn Kernel>,
}

impl Row {
    fn wanted(&self, side: usize) -> Option<f64> {
        self.most.filter(|_| side >= self.wanted_from)
    }
}

/// Another kernel is a module with a `Kernel` and a row here.
const ROWS: &[Row] = &[
    Row {
        name: "pairs, rows upward",
        most: Some(1.0),
        wanted_from: 16,
        sides: &SIDES,
        kernel: pairs::upward,
    },
    Row {
        name: "pairs, rows downward",
        most: Some(1.0),
        wanted_from: 16,
        sides: &SIDES,
        kernel: pairs::downward,
    },
    Row {
        name: "galerkin",
        most: Some(0.125),
        wanted_from: 16,
        sides: &SIDES,
        kernel: galerkin::proved,
    },
    Row {
        name: "galerkin, mirrors searched",
        most: None,
        wanted_from: 16,
        sides: &SIDES,
        kernel: galerkin::with_mirrors,
    },
    Row {
        name: "apply",
        most: Some(0.85),
        wanted_from: 64,
        sides: &SIDES,
        kernel: kernels::apply,
    },
    Row {
        name: "residual, fused",
        most: Some(1.0),
        wanted_from: 64,
        sides: &SIDES,
        kernel: kernels::residual,
    },
    Row {
        name: "residual, vectors padded",
        most: Some(1.0),
        wanted_from: 64,
        sides: &SIDES,
        kernel: kernels::residual_padded,
    },
    Row {
        name: "Gauss-Seidel sweep",
        most: Some(1.0),
        wanted_from: 64,
        sides: &SIDES,
        kernel: sweeps::gauss_seidel,
    },
    Row {
        name: "DIC sweep",
        most: Some(1.0),
        wanted_from: 64,
        sides: &SIDES,
        kernel: sweeps::dic,
    },
    Row {
        name: "dot",
        most: Some(1.0),
        wanted_from: 64,
        sides: &SIDES,
        kernel: dot::two_vectors,
    },
    Row {
        name: "cholesky",
        most: Some(1.0),
        wanted_from: 16,
        sides: &[16],
        kernel: cholesky::all_rows,
    },
    Row {
        name: "build",
        most: Some(0.25),
        wanted_from: 64,
        sides: &SIDES,
        kernel: build::by_values,
    },
    Row {
        name: "build, face weights",
        most: Some(0.25),
        wanted_from: 64,
        sides: &SIDES,
        kernel: build::by_weights,
    },
    Row {
        name: "solve",
        most: Some(0.9),
        wanted_from: 64,
        sides: &SIDES,
        kernel: solve::by_default,
    },
    Row {
        name: "solve, plain cycles",
        most: Some(0.9),
        wanted_from: 64,
        sides: &SIDES,
        kernel: solve::with_plain_cycles,
    },
    Row {
        name: "solve, Gauss-Seidel",
        most: Some(0.9),
        wanted_from: 64,
        sides: &SIDES,
        kernel: solve::with_gauss_seidel,
    },
    Row {
        name: "solve, scaling off",
        most: Some(0.9),
        wanted_from: 64,
        sides: &SIDES,
        kernel: solve::with_scaling_off,
    },
    Row {
        name: "index check of a solve",
        most: None,
        wanted_from: 64,
        sides: &SIDES,
        kernel: solve::index_check,
    },
    Row {
        name: "update",
        most: Some(1.0),
        wanted_from: 64,
        sides: &SIDES,
        kernel: solve::update,
    },
    Row {
        name: "load, beside a model",
        most: Some(1.5),
        wanted_from: 256,
        sides: &SIDES,
        kernel: load::flat,
    },
    Row {
        name: "load with depth",
        most: Some(1.5),
        wanted_from: 256,
        sides: &SIDES,
        kernel: load::deep,
    },
];

/// A long narrow grid, of as many cells as the greatest square has, and its rows. No ratio is wanted of them.
const NARROW: [usize; 2] = [16, 4_096];
const NARROW_ROWS: &[Row] = &[
    Row {
        name: "build",
        most: None,
        wanted_from: 256,
        sides: &[256],
        kernel: build::by_values,
    },
    Row {
        name: "build, cap 8 beside no cap",
        most: None,
        wanted_from: 256,
        sides: &[256],
        kernel: build::capped,
    },
];

/// What the words of the command ask for: the rounds, the rows whose names start so, and the sides of the squares, those alone where one is named; or
/// the stack, or the time by the row.
struct Asked {
    rounds: usize,
    only: String,
    sides: Vec<usize>,
    squares_alone: bool,
    stack: bool,
    scaling: bool,
}

fn main() -> ExitCode {
    match asked() {
        Ok(asked) if asked.stack => status(stack::run()),
        Ok(asked) if asked.scaling => {
            shapes::scaling(asked.rounds);
            status(true)
        }
        Ok(asked) => run(&asked),
        Err(sentence) => {
            eprintln!(
                "bench: {sentence}\nusage: bench [--rounds NUMBER] [--only NAME] [--side NUMBER] [--stack] [--scaling]"
            );
            ExitCode::from(2)
        }
    }
}

fn asked() -> Result<Asked, String> {
    let mut asked = Asked {
        rounds: ROUNDS,
        only: String::new(),
        sides: SIDES.to_vec(),
        squares_alone: false,
        stack: false,
        scaling: false,
    };
    let mut words = std::env::args().skip(1);
    while let Some(word) = words.next() {
        if word == "--stack" {
            asked.stack = true;
            continue;
        }
        if word == "--scaling" {
            asked.scaling = true;
            continue;
        }
        match (word.as_str(), words.next()) {
            ("--rounds", Some(word)) => asked.rounds = number(&word)?,
            ("--side", Some(word)) => {
                asked.sides = vec![number(&word)?];
                asked.squares_alone = true;
            }
            ("--only", Some(name)) => asked.only = name,
            _ => return Err(format!("{word:?} is not understood")),
        }
    }
    if asked.rounds < LEAST_ROUNDS || asked.rounds % 2 == 0 {
        return Err(format!(
            "{} rounds: an odd number from {LEAST_ROUNDS} on",
            asked.rounds
        ));
    }
    let names = ROWS.iter().chain(NARROW_ROWS).map(|row| row.name);
    let mut names = names.chain(shapes::ROWS.iter().map(|row| row.name));
    if !names.any(|name| name.starts_with(&asked.only)) {
        return Err(format!("no row starts with {:?}", asked.only));
    }
    if !asked.sides.iter().all(|side| SIDES.contains(side)) {
        return Err(format!("{:?}: a side of {SIDES:?}", asked.sides));
    }
    Ok(asked)
}

fn number(word: &str) -> Result<usize, String> {
    word.parse().map_err(|error| format!("{word:?}: {error}"))
}

/// Exit status 1 where a ratio is greater than wanted.
fn run(asked: &Asked) -> ExitCode {
    println!(
        "loads of seed {SEED}; medians of {} rounds; microseconds of the processor",
        asked.rounds
    );
    println!(
        "{:<28} {:>9} {:>11} {:>11} {:>10} {:>7}",
        "kernel", "grid", "Rust", "ours", "ours/Rust", "wanted"
    );
    let squares = asked.sides.iter().map(|&side| (ROWS, side, [side, side]));
    let narrow = asked.sides.iter().filter(|&&side| side == 256);
    let narrow = narrow.map(|&side| (NARROW_ROWS, side, NARROW));
    let mut missed = false;
    for (rows, side, extents) in squares.chain(narrow) {
        let grid = Grid::new(SEED, extents);
        let rows = rows.iter().filter(|row| row.sides.contains(&side));
        for row in rows.filter(|row| row.name.starts_with(&asked.only)) {
            let medians = measure((row.kernel)(&grid).as_mut(), asked.rounds);
            print(
                row.name,
                &format!("{}x{}", extents[0], extents[1]),
                &medians,
                row.wanted(side),
            );
            missed |= row.wanted(side).is_some_and(|most| medians.ratio() > most);
        }
    }
    if !asked.squares_alone {
        shapes::run(asked.rounds, &asked.only);
    }
    status(!missed)
}

fn status(good: bool) -> ExitCode {
    if good {
        ExitCode::SUCCESS
    } else {
        ExitCode::FAILURE
    }
}

fn print(name: &str, grid: &str, medians: &Medians, wanted: Option<f64>) {
    let wanted = wanted.map_or(String::new(), |most| format!("{most:.3}"));
    println!(
        "{name:<28} {grid:>9} {:>11.2} {:>11.2} {:>10.3} {wanted:>7}",
        medians.rust,
        medians.ours,
        medians.ratio()
    );
}
