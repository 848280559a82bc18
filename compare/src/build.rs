//! The build of a hierarchy in lent stores beside the Rust's: the answer, every level bit for bit, the statistics, and
//! zeros in all that was lent where it refuses.

pub mod expected;
pub mod hand;
pub mod hierarchy;
pub mod library;
pub mod list;
pub mod problem;

use crate::Effort;
use crate::boundary::kernels::Refused;
use crate::random::Random;
use crate::report::Report;
use hierarchy::Hierarchy;
use oracle::parts;
use oracle::{AlgebraicMultigrid, CsrMatrix, LinearAlgebraError, during_build};
use problem::{Problem, Stores, are_zero, noisy};

/// How many rows a matrix has at most that an example shows.
const SHOWN: usize = 6;

/// What a hand-made problem must answer: how many levels, or the refusal.
type Said = Result<u64, Refused>;

pub fn compare(report: &mut Report, random: &mut Random, effort: Effort) {
    report.set_hand_made(true);
    for (name, problem, said) in hand::problems() {
        one_problem(report, random, name, &problem, Some(said));
    }
    report.set_hand_made(false);
    for _ in 0..effort.times(20_000, 200_000) {
        let (name, problem) = Problem::draw(random);
        one_problem(report, random, &name, &problem, None);
    }
    for _ in 0..effort.times(4_000, 100_000) {
        let problem = Problem::with_shaken_mirrors(random);
        one_problem(report, random, "shaken-mirrors", &problem, None);
    }
}

fn one_problem(
    report: &mut Report,
    random: &mut Random,
    name: &str,
    problem: &Problem,
    said: Option<Said>,
) {
    let due = expected::build(problem).answer;
    let mut stores = noisy(random, &problem.lent);
    let ours = library::build(problem, &mut stores);
    let found = difference(&ours, &due, &stores);
    let kind = report.kind(&format!("build/{name}"));
    report.case(kind, found.is_none(), || {
        format!("{} of {}", found.unwrap_or_default(), shown(problem))
    });
    let told = told(&due);
    report.answer(&format!("build/{}", class(told)));
    if let Some(said) = said {
        let kind = report.kind("build/oracle-says-what-was-said");
        report.case(kind, told == said, || {
            format!("{name}: said {said:?}, expected {told:?}")
        });
    }
    let kind = report.kind("build/oracle-steps-and-whole");
    let whole = whole_difference(problem, &due);
    report.case(kind, whole.is_none(), || {
        format!(
            "{name}: {} of {}",
            whole.unwrap_or_default(),
            shown(problem)
        )
    });
}

pub fn told(due: &Result<Hierarchy, Refused>) -> Said {
    match due {
        Ok(made) => Ok(made.levels.len() as u64),
        &Err(refused) => Err(refused),
    }
}

/// The kind of an answer.
pub fn class(told: Said) -> String {
    match told {
        Ok(levels) => format!("accepted/levels-{levels:02}"),
        Err((number, level, _)) if level > 0 => format!("refused-{number:02}/below-finest"),
        Err((number, ..)) => format!("refused-{number:02}"),
    }
}

/// What differs first between our answer with the stores it left and the one that is due.
pub fn difference(
    ours: &Result<u64, Refused>,
    due: &Result<Hierarchy, Refused>,
    stores: &Stores,
) -> Option<String> {
    match (ours, due) {
        (Err(ours), Err(due)) if ours == due => {
            (!are_zero(stores)).then(|| format!("refused {due:?}, not all zeros"))
        }
        (Ok(levels), Ok(due)) => {
            let Some(view) = Hierarchy::read(*levels as usize, stores) else {
                return Some(format!("{levels} levels pass the end of a store"));
            };
            view.difference(due).or_else(|| {
                let statistics = due.statistics(stores.statistics.len());
                (stores.statistics != statistics)
                    .then(|| format!("statistics {:?} beside {statistics:?}", stores.statistics))
            })
        }
        _ => {
            let due = due.as_ref().map(|due| due.levels.len());
            Some(format!("ours {ours:?}, due {due:?}"))
        }
    }
}

/// The same problem through the Rust's own `new`, `new_with_face_weights` and `build`: where 7, 9 and 14, which are not
/// in the Rust, pass, it accepts or refuses by the same question, and all that it holds is what the steps gave. A matrix of
/// no rows it refuses.
fn whole_difference(problem: &Problem, due: &Result<Hierarchy, Refused>) -> Option<String> {
    let matrix = problem.arrays.container();
    let public = match &matrix {
        Ok(matrix) => public_cells(problem, matrix).map_err(|error| expected::number_of(&error)),
        &Err(number) => Err(number),
    };
    match due {
        Err((7 | 9 | 14, ..)) => None,
        &Err((number, ..)) => (public.as_ref().err() != Some(&number))
            .then(|| format!("refused by {number}, the Rust answers {public:?}")),
        Ok(due) if due.levels.is_empty() => (public.as_ref().err() != Some(&8))
            .then(|| format!("no rows, the Rust answers {public:?}")),
        Ok(due) => {
            let cells: Vec<usize> = due.levels.iter().map(hierarchy::Level::rows).collect();
            if public.as_ref() != Ok(&cells) {
                return Some(format!("rows {cells:?}, the Rust has {public:?}"));
            }
            let weights = problem.weights.as_deref();
            let built = matrix.ok().map(|matrix| {
                parts::Hierarchy::build(&matrix, problem.options, weights)
                    .map(|built| levels_differ(&built, due))
            });
            match built {
                Some(Ok(difference)) => difference,
                _ => Some("the Rust's build refuses".to_string()),
            }
        }
    }
}

/// The rows of each level, as the Rust's statistics tell them.
fn public_cells(problem: &Problem, matrix: &CsrMatrix) -> Result<Vec<usize>, LinearAlgebraError> {
    let built = during_build(|| match &problem.weights {
        Some(weights) => {
            AlgebraicMultigrid::new_with_face_weights(matrix, weights, problem.options)
        }
        None => AlgebraicMultigrid::new(matrix, problem.options),
    })?;
    let untouched = |level: &oracle::MultigridLevelStatistics| {
        level.visits == 0 && level.smoothing_sweeps == 0 && level.coarse_iterations == 0
    };
    assert!(built.statistics().iter().all(untouched));
    Ok(built.statistics().iter().map(|level| level.cells).collect())
}

/// The levels that the Rust's own `build` holds, as far as they are visible.
fn levels_differ(built: &parts::Hierarchy, due: &Hierarchy) -> Option<String> {
    let words = |numbers: &[usize]| -> Vec<u32> { numbers.iter().map(|&n| n as u32).collect() };
    let levels = built.levels().zip(&due.levels).map(|(theirs, due)| {
        let rows = due.rows();
        let aggregates = theirs.aggregates.map_or_else(|| due.links.clone(), words);
        hierarchy::Level {
            last: theirs.aggregates.is_none(),
            offsets: words(theirs.matrix.row_offsets()),
            columns: words(theirs.matrix.column_indices()),
            starts: words(theirs.offsets),
            neighbors: theirs.neighbors.to_vec(),
            links: aggregates,
            positions: words(theirs.coarse_entries),
            values: theirs.matrix.values().to_vec(),
            coefficients: theirs.coefficients.to_vec(),
            diagonal: theirs.diagonal.to_vec(),
            inverse: theirs.inverse.to_vec(),
            dic: match theirs.inverse_dic {
                [] => vec![0.0; rows],
                dic => dic.to_vec(),
            },
            ..due.clone()
        }
    });
    let theirs = Hierarchy {
        levels: levels.collect(),
        sums: due.sums.clone(),
    };
    theirs.difference(due)
}

/// The whole problem where it is small; else its size, and the seed repeats it.
pub fn shown(problem: &Problem) -> String {
    let (arrays, lent, options) = (&problem.arrays, problem.lent, &problem.options);
    let cap = problem.cap;
    let (rows, entries) = (arrays.rows, arrays.columns.len());
    if rows > SHOWN {
        return format!("{rows} rows, {entries} entries, lent {lent:?}, cap {cap}, {options:?}");
    }
    let (offsets, columns) = (&arrays.offsets, &arrays.columns);
    let (values, weights) = (&arrays.values, &problem.weights);
    format!(
        "{rows} rows, offsets {offsets:?} columns {columns:?} values {values:?} weights {weights:?}, lent {lent:?}, cap {cap}, {options:?}"
    )
}
