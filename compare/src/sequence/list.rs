//! A list of builds with the calls after them and the answers that are due, for a program that replays them from its standard input.
//!
//! The text is made like that of compare/src/build/list.rs. First the number of sequences, 8 digits; then, for each of them,
//!
//! - how many bytes of it follow, 8 digits;
//! - the arguments of the build, as they stand there, and what is lent; the build is accepted;
//! - how many calls follow;
//! - for each call its kind, 0 an update and 1 a solve, and what is added to the levels of the handle, which is 0 where the call is
//!   given the handle of the build;
//! - of an update how many offsets, columns and values there are, these, and the answer: 0 or the question's number, its level, its row;
//! - of a solve how many elements right-hand side and start have, their bits, both tolerances as bits and the limit; then the answer: 0
//!   or the question's number, 0 where it converged and 1 where the iterations are used up, the iterations, the bits of the three
//!   residuals (zeros where it is refused), and the checksums of the solution and of the statistics after it: the sum, modulo 2^64, of
//!   the sums of the first numbers, one for each number.

use super::{Call, accepted, any_problem, class, draw_calls, expected, hand, outcome, theirs};
use crate::build::list::{arguments, fits, line, rising};
use crate::build::problem::Problem;
use crate::csr::Arrays;
use crate::random::Random;
use multigrid::LinearSolverStatus;
use std::collections::BTreeMap;
use std::fmt::Write;

/// So many sequences are drawn to find those that are wanted.
const DRAWN: u64 = 30_000;

/// The most bytes of a sequence, so that a replay can hold it.
const MOST: usize = 60_000;

/// The list, in which every kind of answer of a call is met by `each` sequences, or by as many as were found.
pub fn write(random: &mut Random, each: usize) -> String {
    let by_hand = hand::listed().into_iter();
    let by_hand = by_hand.map(|(_, problem, calls)| (problem, calls));
    let mut draw = |times: u64, draw: fn(&mut Random) -> Problem| -> Vec<(Problem, Vec<Call>)> {
        let one = |_| {
            let problem = accepted(random, draw);
            let calls = draw_calls(random, &problem);
            (problem, calls)
        };
        (0..times).map(one).collect()
    };
    let drawn = draw(DRAWN, any_problem);
    let shaken = draw(DRAWN / 10, Problem::with_shaken_mirrors);
    let others = by_hand.chain(drawn).map(|sequence| ("", sequence));
    let shaken = shaken
        .into_iter()
        .map(|sequence| ("shaken mirrors: ", sequence));
    let mut met: BTreeMap<String, usize> = BTreeMap::new();
    let mut kept = Vec::new();
    for (from, (problem, calls)) in others.chain(shaken) {
        if !fits(&problem) || calls.iter().any(|call| !small(call)) {
            continue;
        }
        let added = u64::from(random.below(40) == 0);
        let (text, kinds) = one_sequence(&problem, &calls, added);
        let kinds: Vec<String> = kinds.iter().map(|kind| format!("{from}{kind}")).collect();
        let wanted = kinds
            .iter()
            .any(|kind| met.get(kind).copied().unwrap_or(0) < each);
        if wanted && text.len() <= MOST {
            for kind in kinds {
                *met.entry(kind).or_default() += 1;
            }
            kept.push(text);
        }
    }
    let mut text = format!("{:08x}\n", kept.len());
    for sequence in kept {
        write!(text, "{:08x}\n{sequence}", sequence.len()).expect("a string grows");
    }
    text
}

fn small(call: &Call) -> bool {
    match call {
        Call::Update(arrays) => arrays.columns.len().max(arrays.values.len()) <= 120,
        Call::Solve { .. } => true,
    }
}

/// The text of a sequence, and the kinds of its answers. The last call is given another handle where something is added to its levels.
fn one_sequence(problem: &Problem, calls: &[Call], added: u64) -> (String, Vec<String>) {
    let mut text = arguments(problem);
    line(&mut text, [calls.len() as u64]);
    let mut kinds = Vec::new();
    let mut held = problem.arrays.clone();
    let mut hierarchy = crate::build::expected::build(problem)
        .answer
        .unwrap_or_default();
    let mut theirs = theirs(problem, &held).expect("the Rust builds what it has built");
    let mut statistics = hierarchy.statistics(problem.lent.statistics);
    for (index, call) in calls.iter().enumerate() {
        let other = if index + 1 == calls.len() { added } else { 0 };
        match call {
            Call::Update(arrays) => {
                line(&mut text, [0, other]);
                update_lines(&mut text, arrays);
                let due = match other {
                    0 => expected::update(problem, &hierarchy, &held, arrays),
                    _ => Err((19, 0, 0)),
                };
                kinds.push(format!("update/{}", class(due.as_ref().err())));
                match due {
                    Err((number, level, row)) => line(&mut text, [number, level, row]),
                    Ok(made) => {
                        line(&mut text, [0; 3]);
                        held = arrays.clone();
                        hierarchy = made;
                        let matrix = held.container().expect("accepted");
                        theirs.update_values(&matrix).expect("accepted");
                    }
                }
            }
            Call::Solve { rhs, x, options } => {
                line(&mut text, [1, other]);
                line(&mut text, [rhs.len() as u64, x.len() as u64]);
                line(&mut text, rhs.iter().map(|value| value.to_bits()));
                line(&mut text, x.iter().map(|value| value.to_bits()));
                let (absolute, relative) = (options.absolute_tolerance, options.relative_tolerance);
                line(
                    &mut text,
                    [
                        absolute.to_bits(),
                        relative.to_bits(),
                        options.max_iterations,
                    ],
                );
                let due = match other {
                    0 => expected::solve(problem, &mut theirs, rhs, x, *options, &mut statistics),
                    _ => expected::Solved {
                        answer: Err((19, 0, 0)),
                        x: x.clone(),
                        sweeps: Vec::new(),
                    },
                };
                kinds.push(format!("solve/{}", outcome(&due.answer)));
                match &due.answer {
                    Err((number, ..)) => line(&mut text, [*number, 0, 0, 0, 0, 0]),
                    Ok(report) => line(
                        &mut text,
                        [
                            0,
                            u64::from(report.status == LinearSolverStatus::MaxIterations),
                            report.iterations,
                            report.initial_residual.to_bits(),
                            report.final_residual.to_bits(),
                            report.relative_residual.to_bits(),
                        ],
                    ),
                }
                let solution = rising(due.x.iter().map(|value| value.to_bits()));
                let counted = statistics.iter().flat_map(|record| {
                    let sweeps = [record.pre_sweeps, record.post_sweeps];
                    [record.cells, record.visits]
                        .into_iter()
                        .chain(sweeps)
                        .chain([record.coarse_iterations])
                });
                line(&mut text, [solution, rising(counted)]);
            }
        }
    }
    (text, kinds)
}

fn update_lines(text: &mut String, arrays: &Arrays) {
    let (offsets, columns, values) = (&arrays.offsets, &arrays.columns, &arrays.values);
    line(
        text,
        [offsets.len(), columns.len(), values.len()].map(|length| length as u64),
    );
    line(text, offsets.iter().map(|&word| u64::from(word)));
    line(text, columns.iter().map(|&word| u64::from(word)));
    line(text, values.iter().map(|value| value.to_bits()));
}
