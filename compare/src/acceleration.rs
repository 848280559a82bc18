//! `correct` of `acceleration` beside `GcrWorkspace` of acceleration.rs, through several corrections and restarts.

use crate::Effort;
use crate::boundary::corrections::Acceleration;
use crate::numbers::{self, DRAWS, Draw};
use crate::random::Random;
use crate::report::Report;
use crate::stores::{Layout, same_floats};
use oracle::{LinearAlgebraError, parts};

pub fn compare(report: &mut Report, random: &mut Random, effort: Effort) {
    for (name, draw) in DRAWS {
        for _ in 0..effort.times(250, 7_000) {
            let n = numbers::rows(random);
            one_memory(report, random, name, draw, n);
        }
        for _ in 0..effort.times(20, 300) {
            let n = numbers::many_rows(random);
            one_memory(report, random, name, draw, n);
        }
    }
}

fn one_memory(report: &mut Report, random: &mut Random, name: &str, draw: Draw, n: usize) {
    let krylov = 1 + random.index(5);
    let mut theirs = parts::Acceleration::new(n, krylov);
    let mut floats = Layout::default();
    let at = Acceleration {
        n,
        krylov,
        solution: floats.place(random, n),
        directions: floats.place(random, krylov * n),
        images: floats.place(random, krylov * n),
        residual: floats.place(random, n),
        direction: floats.place(random, n),
        image: floats.place(random, n),
    };
    let mut floats = floats.store(random);
    let mut solution = numbers::vector(random, draw, n);
    floats.put(at.solution, solution.iter().copied());
    let mut used = 0;
    for _ in 0..krylov + 2 {
        let [mut direction, mut image, residual] = vectors(random, draw, n);
        floats.put(at.direction, direction.iter().copied());
        floats.put(at.image, image.iter().copied());
        floats.put(at.residual, residual.iter().copied());
        let written = [
            (at.solution, n),
            (at.directions, krylov * n),
            (at.images, krylov * n),
            (at.direction, n),
            (at.image, n),
        ];
        let (ours, kept) = floats.call(&written, |f| at.correct(f, used));
        let answer = theirs.correct(&mut direction, &mut image, &residual, &mut solution);
        let terms = numbers::products(&image, &image);
        let next = if used == krylov { 1 } else { used + 1 };
        let due = answer
            .map(|()| next as u64)
            .map_err(|error| question(&error));
        let agrees = ours == due && same_floats(floats.at(at.solution, n), &solution);
        let kind = report.kind(&format!("acceleration/correct/{name}"));
        report.case(kind, agrees, || {
            let solution = numbers::shown(&solution);
            format!("used {used} of {krylov}: ours {ours:?} theirs {due:?} solution {solution}")
        });
        let kind = report.kind("acceleration/outside-unchanged");
        report.case(kind, kept, String::new);
        match due {
            Ok(now) => {
                report.answer(&format!("acceleration/correct/used-{now}"));
                if numbers::blocks_show(&terms) {
                    report.answer("acceleration/correct/one-sum-would-show");
                }
                used = next;
            }
            Err(number) => {
                report.answer(&format!("acceleration/correct/refused-{number}"));
                break;
            }
        }
    }
}

/// A direction, its image, which at times is zero, small or the residual, and a residual.
fn vectors(random: &mut Random, draw: Draw, n: usize) -> [Vec<f64>; 3] {
    let [mut direction, mut image, residual] = [(); 3].map(|()| numbers::vector(random, draw, n));
    match random.below(12) {
        0 => image.fill(random.signed(0.0)),
        1 => image.clone_from(&residual),
        2 => {
            let scale = random.pick(&[1e-160, 1e-200, 1e-320]);
            image.iter_mut().for_each(|value| *value *= scale);
        }
        3 => direction.iter_mut().for_each(|value| *value *= 1e300),
        _ => {}
    }
    [direction, image, residual]
}

/// The questions 28, 29 and 30 by the Rust's words.
fn question(error: &LinearAlgebraError) -> u64 {
    match error {
        LinearAlgebraError::Breakdown { reason } if reason.starts_with("zero") => 29,
        LinearAlgebraError::Breakdown { reason } if reason.contains("direction") => 30,
        _ => 28,
    }
}
