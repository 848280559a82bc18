//! Calls on damaged stores: words and floats that a build left, the handle and the sizes of what is lent, some of them
//! changed. Every call answers. Refused by 19, a call leaves every word, float and record as it was; refused by another
//! question, all but scratch. What they read and write is watched from outside (valgrind).

use super::{Call, accepted, any_problem, draw_calls};
use crate::Effort;
use crate::build::hierarchy::Hierarchy;
use crate::build::problem::{Stores, noisy};
use crate::options;
use crate::random::Random;
use crate::report::Report;
use multigrid::MultigridOptions;
use multigrid::lent::{self, Handle};

pub fn compare(report: &mut Report, random: &mut Random, effort: Effort) {
    let kind = report.kind("damage/stores");
    for _ in 0..effort.times(6_000, 100_000) {
        let problem = accepted(random, any_problem);
        let calls = draw_calls(random, &problem);
        let mut stores = noisy(random, &problem.lent);
        let Ok(mut handle) = crate::build::library::handle(&problem, &mut stores) else {
            report.case(kind, false, || {
                "a build that is accepted refuses".to_string()
            });
            continue;
        };
        // Once in three times all of them spoil one thing, so that it alone decides.
        let one = (random.below(3) == 0).then(|| random.pick(&DAMAGES));
        for _ in 0..1 + random.index(4) {
            let (name, damage) = one.unwrap_or_else(|| random.pick(&DAMAGES));
            damage(random, &mut stores, &mut handle);
            report.answer(&format!("damage/changed/{name}"));
        }
        for call in &calls {
            let found = one_call(report, &handle, &mut stores, call);
            report.case(kind, found.is_none(), || found.unwrap_or_default());
        }
    }
}

type Damage = fn(&mut Random, &mut Stores, &mut Handle);

/// Words twice: most of what 19 asks stands in them.
const DAMAGES: [(&str, Damage); 12] = [
    ("words", word),
    ("words", word),
    ("floats", |random, stores, _| {
        let near = [0.0, f64::NAN, f64::INFINITY, 1e308, 5e-324, -1.0];
        if let Some(float) = crate::csr::any(&mut stores.floats, random) {
            *float = random.pick(&near);
        }
    }),
    ("levels", |random, _, handle| {
        let near = [handle.levels.wrapping_sub(1), handle.levels.wrapping_add(1)];
        handle.levels = random.pick(&[near[0], near[1], 0, 1, 2, 3, 64, 128, 129, u64::MAX]);
    }),
    ("rows", |random, _, handle| {
        let near = [handle.rows.wrapping_sub(1), handle.rows.wrapping_add(1)];
        handle.rows = random.pick(&[near[0], near[1], 0, 1, 2, 65_537, u64::MAX]);
    }),
    ("entries", |random, _, handle| {
        let near = [
            handle.entries.wrapping_sub(1),
            handle.entries.wrapping_add(1),
        ];
        handle.entries = random.pick(&[near[0], near[1], 0, 1, handle.rows, 1_048_577, u64::MAX]);
    }),
    ("one-control", |random, _, handle| {
        let mut other = compare::library::options(&options::any(random));
        other.max_aggregate_cells = random.pick(&[1, 2, 65_535, 65_536, u64::MAX]);
        random.pick(&CONTROLS)(&mut handle.options, &other);
    }),
    ("valid-controls", |random, _, handle| {
        let coarse_solver = handle.options.coarse_solver;
        let other = compare::library::options(&options::valid(random));
        handle.options = MultigridOptions {
            coarse_solver,
            ..other
        };
    }),
    ("controls", |random, _, handle| {
        handle.options = compare::library::options(&options::any(random));
    }),
    ("records", |random, stores, _| {
        shorten(random, &mut stores.statistics, 3);
    }),
    ("floats-lent", |random, stores, _| {
        shorten(random, &mut stores.floats, 65);
    }),
    ("words-lent", |random, stores, _| {
        shorten(random, &mut stores.words, 65);
    }),
];

fn word(random: &mut Random, stores: &mut Stores, _: &mut Handle) {
    let near = [0, 1, 2, 3, 65_536, 65_537, 1_048_577, u32::MAX];
    let most = stores.words.len();
    // The first words are the hierarchy's.
    let most = if random.below(2) == 0 { most / 8 } else { most };
    if let Some(word) = crate::csr::any(&mut stores.words[..most], random) {
        *word = match random.below(3) {
            0 => random.pick(&near),
            1 => word.wrapping_add(random.pick(&[1, 2, u32::MAX])),
            _ => random.below(100) as u32,
        };
    }
}

/// To any length, or by fewer than `few` elements.
fn shorten<T>(random: &mut Random, lent: &mut Vec<T>, few: usize) {
    let most = lent.len();
    let any = random.index(most + 1);
    let near = most - random.index(few.min(most + 1));
    lent.truncate(random.pick(&[any, near]));
}

type Put = fn(&mut MultigridOptions, &MultigridOptions);

/// Each puts one control of another set in its place.
const CONTROLS: [Put; 17] = [
    |to, other| to.smoother = other.smoother,
    |to, other| to.residual_norm = other.residual_norm,
    |to, other| to.pre_sweeps = other.pre_sweeps,
    |to, other| to.post_sweeps = other.post_sweeps,
    |to, other| to.finest_sweeps = other.finest_sweeps,
    |to, other| to.sweep_level_multiplier = other.sweep_level_multiplier,
    |to, other| to.max_sweeps = other.max_sweeps,
    |to, other| to.coarsest_cells = other.coarsest_cells,
    |to, other| to.max_levels = other.max_levels,
    |to, other| to.merge_levels = other.merge_levels,
    |to, other| to.krylov_dimension = other.krylov_dimension,
    |to, other| to.coarse_solver = other.coarse_solver,
    |to, other| to.coarse_absolute_tolerance = other.coarse_absolute_tolerance,
    |to, other| to.coarse_relative_tolerance = other.coarse_relative_tolerance,
    |to, other| to.coarse_max_iterations = other.coarse_max_iterations,
    |to, other| to.scale_correction = other.scale_correction,
    |to, other| to.max_aggregate_cells = other.max_aggregate_cells,
];

/// What is wrong first, if anything is.
fn one_call(
    report: &mut Report,
    handle: &Handle,
    stores: &mut Stores,
    call: &Call,
) -> Option<String> {
    let before = stores.clone();
    let sound = lent::statistics(handle, stores).is_ok();
    if let Some(found) = changed(&before, stores, before.floats.len(), 0) {
        return Some(format!("statistics: {found}"));
    }
    let (name, answer) = match call {
        Call::Update(arrays) => {
            let (offsets, columns) = (&arrays.offsets, &arrays.columns);
            let answer = lent::update_values(handle, offsets, columns, &arrays.values, stores);
            ("update", answer)
        }
        Call::Solve { rhs, x, options } => {
            let mut y = x.clone();
            let answer = lent::solve(handle, stores, rhs, &mut y, *options);
            let same = y.iter().zip(x).all(|(a, b)| a.to_bits() == b.to_bits());
            if answer.is_err() && !same {
                return Some(format!("solve: {answer:?}, the solution changed"));
            }
            ("solve", answer.map(|_| ()))
        }
    };
    let number = answer.err().map(|refusal| refusal.number());
    let answer = number.map_or("accepted".to_string(), |number| {
        format!("refused-{number:02}")
    });
    report.answer(&format!("damage/{name}/{answer}"));
    if sound == (number == Some(19)) {
        let other = if sound { "accepted" } else { "refused" };
        return Some(format!("{name}: {answer}, statistics are {other}"));
    }
    let Some(floats) = floats_kept(name, number, handle, &before) else {
        return Some(format!(
            "{name}: {answer}, the levels pass the end of a store"
        ));
    };
    let counted = match (name, number) {
        ("solve", None) => handle.levels as usize,
        _ => 0,
    };
    let found = changed(&before, stores, floats, counted)?;
    Some(format!("{name}: {answer}, {found}"))
}

/// How many floats from the first on a call has to leave as they were; None where the stores hold no such levels.
fn floats_kept(name: &str, number: Option<u64>, handle: &Handle, stores: &Stores) -> Option<usize> {
    // The levels and the row sums of the finest.
    let image = || Some(Hierarchy::read(handle.levels as usize, stores)?.floats());
    match (name, number) {
        (_, Some(19)) => Some(stores.floats.len()),
        // A solve writes neither the image nor its shadow, accepted or not.
        ("solve", _) => Some(2 * image()?),
        (_, Some(_)) => image(),
        // An update that is accepted writes the image anew.
        (_, None) => Some(0),
    }
}

/// What differs first of the words, of so many floats and of the statistics, of which the counters of so many records at the
/// front may have grown.
fn changed(before: &Stores, now: &Stores, floats: usize, counted: usize) -> Option<String> {
    if before.words != now.words {
        return Some("a word changed".to_string());
    }
    let mut pairs = before.floats[..floats].iter().zip(&now.floats);
    if let Some(at) = pairs.position(|(then, now)| then.to_bits() != now.to_bits()) {
        return Some(format!("float {at} of {floats} changed"));
    }
    let records = before.statistics.iter().zip(&now.statistics);
    for (record, (then, now)) in records.enumerate() {
        let kept = if record < counted {
            then.cells == now.cells
                && then.visits <= now.visits
                && then.pre_sweeps <= now.pre_sweeps
                && then.post_sweeps <= now.post_sweeps
                && then.coarse_iterations <= now.coarse_iterations
        } else {
            then == now
        };
        if !kept {
            return Some(format!("record {record}: {now:?}, it was {then:?}"));
        }
    }
    None
}
