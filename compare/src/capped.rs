//! Aggregates with a cap on their rows, which the Rust has not: `pairs`, builds and refreshed hierarchies beside a model
//! of document 02's rule. With a cap of 0 the model is held against the Rust.

use crate::Effort;
use crate::aggregation;
use crate::build::hierarchy::Hierarchy;
use crate::build::problem::{Problem, noisy};
use crate::build::{class, difference, expected, library, shown, told};
use crate::matrices::{Case, container};
use crate::pattern::{Pattern, Shape};
use crate::random::Random;
use crate::report::Report;
use crate::sequence::{Call, accepted, draw_calls};
use crate::stores::same_numbers;
use multigrid::lent;
use oracle::{CsrMatrix, parts};

/// Small ones most often, which are full soon.
pub const CAPS: [u64; 10] = [2, 2, 2, 3, 3, 4, 5, 8, 17, 65_535];

/// No cap, or 2 to 65,535.
pub fn is_allowed(cap: u64) -> bool {
    cap == 0 || (2..=65_535).contains(&cap)
}

/// The rows in order, each that is in no aggregate yet: with its strongest free neighbour in a new one, else in that of the
/// strongest assigned neighbour whose aggregate is not full, else alone. Only strengths above zero count, and of equal ones
/// the first. Told is what became of a row that has a full neighbour.
pub fn pairs(
    matrix: &CsrMatrix,
    forward: bool,
    weights: Option<&[f64]>,
    cap: u64,
    tell: &mut impl FnMut(&'static str),
) -> (Vec<usize>, usize) {
    let rows = matrix.nrows();
    let mut own: Vec<Option<usize>> = vec![None; rows];
    let mut aggregates: Vec<Vec<usize>> = Vec::new();
    for turn in 0..rows {
        let row = if forward { turn } else { rows - 1 - turn };
        if own[row].is_some() {
            continue;
        }
        let neighbours = neighbours(matrix, weights, row);
        let (mut free, mut open, mut full) = (Vec::new(), Vec::new(), Vec::new());
        for (column, strength) in neighbours {
            match own[column] {
                None => free.push((column, strength)),
                Some(joined) if cap > 0 && aggregates[joined].len() as u64 == cap => {
                    full.push((joined, strength, open.len()));
                }
                Some(joined) => open.push((joined, strength)),
            }
        }
        let place = match (strongest(&free), strongest(&open)) {
            (Some(at), _) => {
                aggregates.push(vec![free[at].0]);
                aggregates.len() - 1
            }
            (None, Some(at)) => open[at].0,
            (None, None) => {
                aggregates.push(Vec::new());
                aggregates.len() - 1
            }
        };
        aggregates[place].push(row);
        for &row in &aggregates[place] {
            own[row] = Some(place);
        }
        if !full.is_empty() {
            tell(met(&free, &open, &full));
        }
        if cap > 0 && aggregates[place].len() as u64 == cap {
            tell("now-full");
        }
    }
    let map = own
        .into_iter()
        .map(|own| own.expect("every row has its turn"));
    (map.collect(), aggregates.len())
}

/// The neighbours of a row with strengths above zero, in entry order.
fn neighbours(matrix: &CsrMatrix, weights: Option<&[f64]>, row: usize) -> Vec<(usize, f64)> {
    let entries = matrix.row_offsets()[row]..matrix.row_offsets()[row + 1];
    let strength = |entry: usize| match weights {
        Some(weights) => weights[entry],
        None => matrix.values()[entry].abs(),
    };
    entries
        .map(|entry| (matrix.column_indices()[entry], strength(entry)))
        .filter(|&(column, strength)| column != row && strength > 0.0)
        .collect()
}

/// Where the first of the strongest stands.
fn strongest(candidates: &[(usize, f64)]) -> Option<usize> {
    let most = candidates.iter().map(|&(_, strength)| strength);
    let most = most.fold(0.0, f64::max);
    candidates
        .iter()
        .position(|&(_, strength)| strength == most)
}

/// What a row with a full neighbour came to. Of each full one it is known how many open ones stand before it.
fn met(free: &[(usize, f64)], open: &[(usize, f64)], full: &[(usize, f64, usize)]) -> &'static str {
    match (strongest(free), strongest(open)) {
        (Some(_), _) => "free-beside-full",
        (None, None) => "alone",
        (None, Some(at)) => {
            let taken = open[at].1;
            if full.iter().any(|&(_, strength, _)| strength > taken) {
                "weaker-taken"
            } else if full
                .iter()
                .any(|&(_, strength, before)| strength == taken && before <= at)
            {
                "second-of-equals-taken"
            } else {
                "strongest-is-open"
            }
        }
    }
}

pub fn compare(report: &mut Report, random: &mut Random, effort: Effort) {
    report.set_hand_made(true);
    by_hand(report, random);
    report.set_hand_made(false);
    for turn in 0..effort.times(3_000, 110_000) {
        let case = draw(random, turn);
        let cap = random.pick(&CAPS);
        let given = if case.weights.is_some() {
            "with"
        } else {
            "without"
        };
        let name = format!("capped/pairs/{}/{given}-weights", case.shape);
        for forward in [true, false] {
            one_pairing(report, random, &name, &case, forward, cap, None);
        }
    }
    for _ in 0..effort.times(3_000, 110_000) {
        let problem = Problem::capped(random);
        one_build(report, random, &problem);
    }
    for _ in 0..effort.times(500, 20_000) {
        refreshed(report, random);
    }
}

/// Stars and long narrow grids, and the other shapes in turn.
fn draw(random: &mut Random, turn: u64) -> Case {
    let most = random.pick(&[8, 30, 100]);
    match turn % 4 {
        0 => {
            let rows = 3 + random.index(most);
            let pattern = Shape::Star.full(random, rows);
            let pattern = if random.below(2) == 0 {
                pattern.reordered(random)
            } else {
                pattern
            };
            Case::on("star", &pattern, random)
        }
        1 | 2 => {
            let (wide, long) = (1 + random.index(4), 4 + random.index(most));
            Case::on("narrow-grid", &Pattern::rectangle(wide, long), random)
        }
        _ => Case {
            shape: "any-shape",
            ..Case::draw(random, turn / 4)
        },
    }
}

/// Ours beside the model, and the model without a cap beside the Rust. Where the answer was written down, `said` is it.
fn one_pairing(
    report: &mut Report,
    random: &mut Random,
    name: &str,
    case: &Case,
    forward: bool,
    cap: u64,
    said: Option<&[usize]>,
) {
    let weights = case.weights.as_deref();
    let way = if forward { "up" } else { "down" };
    let due = pairs(&case.matrix, forward, weights, cap, &mut |what| {
        report.answer(&format!("capped/pairs/{what}"));
        if cap == 2 {
            report.answer(&format!("capped/pairs/cap-2-{way}/{what}"));
        }
    });
    let (map, count, kept) = aggregation::ours(random, &case.matrix, weights, forward, cap);
    let agrees = count == due.1 && same_numbers(&map, &due.0) && kept;
    let kind = report.kind(name);
    report.case(kind, agrees, || {
        format!(
            "{way}, cap {cap}: ours {count} {map:?} due {due:?} of {}",
            case.shown()
        )
    });
    let most = (0..due.1).map(|number| due.0.iter().filter(|&&own| own == number).count());
    let kind = report.kind("capped/pairs/no-more-rows-than-the-cap");
    report.case(kind, most.max().unwrap_or(0) as u64 <= cap, || case.shown());
    let kind = report.kind("capped/pairs/model-without-cap");
    let none = pairs(&case.matrix, forward, weights, 0, &mut |_| ());
    report.case(
        kind,
        none == parts::pairs(&case.matrix, forward, weights),
        || case.shown(),
    );
    if let Some(said) = said {
        let kind = report.kind("capped/pairs/model-says-what-was-said");
        report.case(kind, due.0 == said, || {
            format!("{name}: said {said:?}, due {due:?}")
        });
    }
}

/// Name, rows, faces with their weight, cap, whether upward, map.
type Hand = (
    &'static str,
    usize,
    Vec<(usize, usize, f64)>,
    u64,
    bool,
    &'static [usize],
);

/// Small cases with the answer written beside them.
fn by_hand(report: &mut Report, random: &mut Random) {
    // 0 and 1, 2 and 3 are pairs; of its neighbours row 4 has one in each.
    let pairs = [(0, 1, 9.0), (2, 3, 9.0)];
    let two = |one: f64, other: f64| [pairs.to_vec(), vec![(1, 4, one), (3, 4, other)]].concat();
    let star: Vec<_> = (1..6).map(|row| (0, row, 1.0)).collect();
    // Row 4 joins the first pair, which may be full when row 5, with a neighbour in each pair, takes its turn.
    let ahead = |one: f64, other: f64| {
        let own = [
            (0, 1, 9.0),
            (2, 3, 9.0),
            (1, 4, 1.0),
            (1, 5, one),
            (3, 5, other),
        ];
        own.to_vec()
    };
    let cases: [Hand; 8] = [
        ("both-full", 5, two(1.0, 2.0), 2, true, &[0, 0, 1, 1, 2]),
        ("both-open", 5, two(1.0, 2.0), 3, true, &[0, 0, 1, 1, 1]),
        ("equal", 5, two(1.0, 1.0), 3, true, &[0, 0, 1, 1, 0]),
        (
            "equal-first-full",
            6,
            ahead(1.0, 1.0),
            3,
            true,
            &[0, 0, 1, 1, 0, 1],
        ),
        (
            "strongest-full",
            6,
            ahead(2.0, 1.0),
            3,
            true,
            &[0, 0, 1, 1, 0, 1],
        ),
        (
            "strongest-open",
            6,
            ahead(2.0, 1.0),
            4,
            true,
            &[0, 0, 1, 1, 0, 0],
        ),
        ("star-up", 6, star.clone(), 2, true, &[0, 0, 1, 2, 3, 4]),
        ("star-down", 6, star, 3, false, &[0, 3, 2, 1, 0, 0]),
    ];
    for (name, rows, faces, cap, forward, said) in cases {
        let name = format!("capped/pairs/hand-{name}");
        for given in [true, false] {
            let case = weighed(rows, &faces, given);
            one_pairing(report, random, &name, &case, forward, cap, Some(said));
        }
    }
}

/// A matrix with these faces; their weights are given, or are its values.
fn weighed(rows: usize, faces: &[(usize, usize, f64)], given: bool) -> Case {
    let ends: Vec<(usize, usize)> = faces
        .iter()
        .map(|&(row, column, _)| (row, column))
        .collect();
    let pattern = Pattern::of_faces(&vec![true; rows], &ends);
    let mut weights = Vec::new();
    for (row, own) in pattern.offsets.windows(2).enumerate() {
        weights.extend(pattern.columns[own[0]..own[1]].iter().map(|&column| {
            let face = (row.min(column), row.max(column));
            let found = faces.iter().find(|&&(one, other, _)| (one, other) == face);
            found.map_or(0.0, |&(_, _, weight)| weight)
        }));
    }
    let values = weights.iter().map(|weight| -weight).collect();
    Case {
        shape: "by-hand",
        values: "by-hand",
        strengths: "by-hand",
        matrix: container(&pattern, values),
        weights: given.then_some(weights),
    }
}

/// A build with the cap beside the same steps with the model; and with a cap that 6 refuses.
fn one_build(report: &mut Report, random: &mut Random, problem: &Problem) {
    let due = expected::build(problem).answer;
    let mut stores = noisy(random, &problem.lent);
    let ours = library::build(problem, &mut stores);
    let found = difference(&ours, &due, &stores);
    let given = if problem.weights.is_some() {
        "with"
    } else {
        "without"
    };
    let kind = report.kind(&format!("capped/build/{given}-weights"));
    report.case(kind, found.is_none(), || {
        format!("{} of {}", found.unwrap_or_default(), shown(problem))
    });
    report.answer(&format!("capped/build/{}", class(told(&due))));
    let plain = expected::build(&Problem {
        cap: 0,
        ..problem.clone()
    })
    .answer;
    if let (Ok(due), Ok(plain)) = (&due, &plain)
        && due.levels.first().map(|level| &level.links)
            != plain.levels.first().map(|level| &level.links)
    {
        report.answer("capped/build/other-than-without");
    }
    let cap = random.pick(&[1, 65_536, 1 << 32, u64::MAX]);
    let refused = Problem {
        cap,
        ..problem.clone()
    };
    let (due, ours) = (
        expected::build(&refused).answer,
        library::build(&refused, &mut stores),
    );
    let found = difference(&ours, &due, &stores);
    let kind = report.kind("capped/build/refused-by-6");
    report.case(
        kind,
        found.is_none() && due.is_err_and(|due| due.0 == 6),
        || format!("{} of {}", found.unwrap_or_default(), shown(&refused)),
    );
}

/// With weights and a cap: a hierarchy that was refreshed is that of a fresh build, and solves as it does, bit for bit.
fn refreshed(report: &mut Report, random: &mut Random) {
    let problem = loop {
        let problem = accepted(random, Problem::capped);
        if problem.weights.is_some() {
            break problem;
        }
    };
    let mut stores = noisy(random, &problem.lent);
    let Ok(handle) = library::handle(&problem, &mut stores) else {
        return;
    };
    let mut latest = problem.clone();
    let kind = report.kind("capped/refreshed-beside-fresh");
    for call in draw_calls(random, &problem) {
        let mut others = noisy(random, &latest.lent);
        match call {
            Call::Update(arrays) => {
                let (offsets, columns) = (&arrays.offsets, &arrays.columns);
                let values = &arrays.values;
                if lent::update_values(&handle, offsets, columns, values, &mut stores).is_ok() {
                    latest.arrays = arrays;
                    let due = expected::build(&latest).answer;
                    let view = Hierarchy::read(handle.levels as usize, &stores);
                    let found = due.ok().and_then(|due| match view {
                        Some(mut view) => {
                            // As in `sequence`: an update leaves the values of the build.
                            for (level, due) in view.levels.iter_mut().zip(&due.levels) {
                                level.values.clone_from(&due.values);
                            }
                            view.difference(&due)
                        }
                        None => Some("the levels pass the end of a store".to_string()),
                    });
                    report.case(kind, found.is_none(), || {
                        format!(
                            "update: {} of {}",
                            found.unwrap_or_default(),
                            shown(&latest)
                        )
                    });
                }
            }
            Call::Solve { rhs, x, options } => {
                let Ok(fresh) = library::handle(&latest, &mut others) else {
                    report.answer("capped/refreshed/fresh-refused");
                    continue;
                };
                let (mut ours, mut due) = (x.clone(), x);
                let answer = lent::solve(&handle, &mut stores, &rhs, &mut ours, options);
                let said = lent::solve(&fresh, &mut others, &rhs, &mut due, options);
                let same = ours
                    .iter()
                    .zip(&due)
                    .all(|(a, b)| a.to_bits() == b.to_bits());
                let (told, said) = (format!("{answer:?}"), format!("{said:?}"));
                report.case(kind, same && told == said, || {
                    format!("solve: {told} beside {said} of {}", shown(&latest))
                });
                report.answer(if answer.is_ok() {
                    "capped/refreshed/solved"
                } else {
                    "capped/refreshed/refused"
                });
            }
        }
    }
}
