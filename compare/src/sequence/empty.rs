//! A matrix of no rows: builds, updates, solves, statistics and handles beside a model of document 02's words, which
//! stands here in the place of the Rust, which refuses such a matrix.

use super::{Call, differs, draw_solve, expected::Solved, told};
use crate::Effort;
use crate::boundary::kernels::Refused;
use crate::build::problem::{Lent, Problem, Stores, noisy};
use crate::csr::Arrays;
use crate::options;
use crate::random::Random;
use crate::report::Report;
use multigrid::lent::{self, Handle};
use multigrid::{
    LinearSolveReport, LinearSolverOptions, LinearSolverStatus, MultigridLevelStatistics,
};
use oracle::{MultigridCoarseSolver, MultigridOptions};

pub fn compare(report: &mut Report, random: &mut Random, effort: Effort) {
    for _ in 0..effort.times(4_000, 100_000) {
        one_drum(report, random);
        one_handle(report, random);
    }
}

fn no_entries() -> Arrays {
    Arrays {
        rows: 0,
        offsets: vec![0],
        columns: vec![],
        values: vec![],
    }
}

/// A build with exactly its fixed charge or a little more, and then updates and solves in any order.
fn one_drum(report: &mut Report, random: &mut Random) {
    let options = MultigridOptions {
        coarse_solver: MultigridCoarseSolver::Cholesky,
        ..options::valid(random)
    };
    let problem = Problem {
        cap: 0,
        arrays: no_entries(),
        weights: (random.below(2) == 0).then(Vec::new),
        options,
        lent: Lent {
            words: 64 + random.index(2) * random.index(20),
            floats: options.coarsest_cells.pow(2) + random.index(2) * random.index(20),
            statistics: options.max_levels + random.index(3),
        },
    };
    let mut stores = noisy(random, &problem.lent);
    let built = crate::build::library::handle(&problem, &mut stores);
    let kind = report.kind("empty/build");
    let none = MultigridLevelStatistics::default();
    let made = built.is_ok_and(|handle| {
        (handle.levels, handle.rows, handle.entries) == (0, 0, 0)
            && stores.statistics.iter().all(|record| *record == none)
    });
    report.case(kind, made, || format!("{built:?} of {options:?}"));
    let Ok(handle) = built else { return };
    // Nothing is counted: the records stay as they are, whatever they hold.
    stores.statistics = noisy(random, &problem.lent).statistics;
    let kind = report.kind("empty/calls");
    for _ in 0..1 + random.index(8) {
        let call = match random.below(2) {
            0 => Call::Update(draw_arrays(random)),
            _ => draw_solve(random, 0),
        };
        let found = one_call(report, &handle, &mut stores, &call);
        report.case(kind, found.is_none(), || found.unwrap_or_default());
    }
}

/// The arrays of no rows, or others.
fn draw_arrays(random: &mut Random) -> Arrays {
    let mut arrays = no_entries();
    match random.below(8) {
        0 => arrays.offsets = random.pick(&[&[][..], &[1], &[0, 0]]).to_vec(),
        1 => arrays.columns.push(0),
        2 => arrays.values.push(random.unit()),
        3 => {
            arrays.columns.push(0);
            arrays.values.push(1.0);
        }
        _ => (),
    }
    arrays
}

/// Question 31.
fn updated(arrays: &Arrays) -> Result<(), Refused> {
    let same = arrays.offsets == [0] && arrays.columns.is_empty() && arrays.values.is_empty();
    if same { Ok(()) } else { Err((31, 0, 0)) }
}

/// Questions 20 and 21; then converged after no iteration, with three residuals of plus zero.
fn solved(rhs: &[f64], x: &[f64], options: LinearSolverOptions) -> Solved {
    let fits = |tolerance: f64| tolerance.is_finite() && tolerance >= 0.0;
    let answer = if !rhs.is_empty() || !x.is_empty() {
        Err((20, 0, 0))
    } else if options.max_iterations == 0
        || !fits(options.absolute_tolerance)
        || !fits(options.relative_tolerance)
    {
        Err((21, 0, 0))
    } else {
        Ok(LinearSolveReport {
            status: LinearSolverStatus::Converged,
            iterations: 0,
            initial_residual: 0.0,
            final_residual: 0.0,
            relative_residual: 0.0,
        })
    };
    Solved {
        answer,
        x: x.to_vec(),
        sweeps: Vec::new(),
    }
}

/// What differs first, if anything does. No word, float or record changes in any call, and the statistics are those of no level.
fn one_call(
    report: &mut Report,
    handle: &Handle,
    stores: &mut Stores,
    call: &Call,
) -> Option<String> {
    let before = stores.clone();
    let found = match call {
        Call::Update(arrays) => {
            let (offsets, columns) = (&arrays.offsets, &arrays.columns);
            let ours = lent::update_values(handle, offsets, columns, &arrays.values, stores);
            let (ours, due) = (ours.map_err(told), updated(arrays));
            report.answer(&format!(
                "empty/update/{}",
                super::class(due.as_ref().err())
            ));
            (ours != due).then(|| format!("update: ours {ours:?}, due {due:?}"))
        }
        Call::Solve { rhs, x, options } => {
            let due = solved(rhs, x, *options);
            let mut y = x.clone();
            let ours = lent::solve(handle, stores, rhs, &mut y, *options).map_err(told);
            let norm = handle.options.residual_norm;
            report.answer(&match &due.answer {
                Ok(_) => format!("empty/solve/{norm:?}/converged"),
                Err(refused) => format!("empty/solve/{}", super::class(Some(refused))),
            });
            differs(&ours, &y, &due).map(|found| format!("solve: {found}"))
        }
    };
    let levels = lent::statistics(handle, stores);
    found
        .or_else(|| (levels != Ok(0)).then(|| format!("statistics {levels:?}")))
        .or_else(|| (!same(&before, stores)).then(|| "a store changed".to_string()))
}

fn same(before: &Stores, now: &Stores) -> bool {
    let mut floats = before.floats.iter().zip(&now.floats);
    before.words == now.words
        && before.statistics == now.statistics
        && floats.all(|(then, now)| then.to_bits() == now.to_bits())
}

/// Question 19 of handles by hand, with stores that hold anything: no levels exactly with no rows, and then no entries; the controls
/// are asked still. Handles with a level and a row are asked their stores, and are none of these.
fn one_handle(report: &mut Report, random: &mut Random) {
    let numbers = [0, 0, 0, 0, 1, 2, u64::MAX];
    let mut number = || random.pick(&numbers);
    let (levels, rows, entries) = (number(), number(), number());
    if levels > 0 && rows > 0 {
        return;
    }
    let controls = match random.below(4) {
        0 => options::any(random),
        1 => options::valid(random),
        _ => MultigridOptions {
            coarse_solver: MultigridCoarseSolver::Cholesky,
            ..options::valid(random)
        },
    };
    let holds =
        controls.validate().is_ok() && controls.coarse_solver == MultigridCoarseSolver::Cholesky;
    let why = match (holds, levels, rows, entries) {
        (false, ..) => Some("controls"),
        (_, 1.., ..) => Some("levels"),
        (_, _, 1.., _) => Some("rows"),
        (_, _, _, 1..) => Some("entries"),
        _ => None,
    };
    report.answer(&why.map_or("empty/handle/sound".to_string(), |why| {
        format!("empty/handle/refused-19/{why}")
    }));
    let handle = Handle {
        options: compare::library::options(&controls),
        levels,
        rows,
        entries,
    };
    let lent = Lent {
        words: random.index(70),
        floats: random.index(70),
        statistics: random.index(3),
    };
    let mut stores = noisy(random, &lent);
    let before = stores.clone();
    let due = match why {
        Some(_) => Err((19, 0, 0)),
        None => Ok(()),
    };
    let ask = LinearSolverOptions::default();
    let answers = [
        lent::statistics(&handle, &stores).map(|_| ()),
        lent::update_values(&handle, &[0], &[], &[], &mut stores),
        lent::solve(&handle, &mut stores, &[], &mut [], ask).map(|_| ()),
    ];
    let answers = answers.map(|answer| answer.map_err(told));
    let agrees = answers.iter().all(|answer| *answer == due) && same(&before, &stores);
    let kind = report.kind("empty/handle");
    report.case(kind, agrees, || {
        format!("ours {answers:?}, due {due:?} of {handle:?}")
    });
}
