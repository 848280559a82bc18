//! One build and then updates and solves in any order, beside the Rust's: every answer, the whole solution bit for bit,
//! the statistics, and after a refusal every word but scratch as it was. After a build with weights each solve is also
//! held against a hierarchy that is built afresh from the latest accepted values.

pub mod damage;
pub mod empty;
pub mod expected;
mod hand;
pub mod list;

use crate::Effort;
use crate::boundary::kernels::Refused;
use crate::build::hierarchy::Hierarchy;
use crate::build::problem::{Lent, Problem, Stores, noisy, shake};
use crate::csr::Arrays;
use crate::numbers::BLOCK;
use crate::random::Random;
use crate::report::{Report, hex, same};
use multigrid::lent::{self, Handle};
use multigrid::{
    LinearSolveReport, LinearSolverOptions, LinearSolverStatus, MultigridLevelStatistics, Refusal,
};
use oracle::{AlgebraicMultigrid, MultigridResidualNorm, during_build};

pub fn compare(report: &mut Report, random: &mut Random, effort: Effort) {
    report.set_hand_made(true);
    for (name, problem, calls) in hand::sequences() {
        one_sequence(report, random, &format!("sequence/{name}"), &problem, calls);
    }
    report.set_hand_made(false);
    for _ in 0..effort.times(6_000, 100_000) {
        let problem = accepted(random, any_problem);
        let calls = draw_calls(random, &problem);
        let name = match problem.weights {
            Some(_) => "sequence/with-weights",
            None => "sequence/without-weights",
        };
        one_sequence(report, random, name, &problem, calls);
    }
    for _ in 0..effort.times(1_000, 50_000) {
        let problem = accepted(random, Problem::with_shaken_mirrors);
        let calls = draw_calls(random, &problem);
        let name = match problem.weights {
            Some(_) => "sequence/shaken-mirrors/with-weights",
            None => "sequence/shaken-mirrors/without-weights",
        };
        one_sequence(report, random, name, &problem, calls);
    }
    for turn in 0..effort.times(8, 200) {
        large(report, random, turn);
    }
    weeks(report, random, effort);
}

/// Solves with corrections that are added as they are.
pub fn compare_unscaled(report: &mut Report, random: &mut Random, effort: Effort) {
    for _ in 0..effort.times(2_000, 60_000) {
        unscaled(report, random);
    }
}

/// Corrections that are added as they are, on several levels. From some row on the right-hand side is zero or the smallest numbers there are,
/// so that in parts of the matrix that nothing joins to the rest a coarse solution vanishes with either sign.
fn unscaled(report: &mut Report, random: &mut Random) {
    let problem = loop {
        let problem = accepted(random, Problem::unscaled);
        let built = crate::build::expected::build(&problem).answer;
        if built.is_ok_and(|hierarchy| hierarchy.levels.len() > 1) {
            break problem;
        }
    };
    let rows = problem.arrays.rows;
    let calls = (0..1 + random.index(4)).map(|_| {
        let from = random.index(rows);
        let mut small = |row: usize| match (row < from, random.below(3)) {
            (true, _) => random.unit(),
            (false, 0) => random.signed(0.0),
            (false, _) => {
                let size = f64::from_bits(1 + random.below(3));
                random.signed(size)
            }
        };
        let rhs = (0..rows).map(&mut small).collect();
        let x = match random.below(2) {
            0 => vec![random.signed(0.0); rows],
            _ => (0..rows).map(|_| random.unit()).collect(),
        };
        let options = LinearSolverOptions {
            absolute_tolerance: 0.0,
            relative_tolerance: random.pick(&[0.0, 1e-8, 1e-3, 0.5]),
            max_iterations: random.pick(&[1, 2, 3, 5, 10]),
        };
        Call::Solve { rhs, x, options }
    });
    let calls = calls.collect();
    let name = match problem.weights {
        Some(_) => "unscaled/with-weights",
        None => "unscaled/without-weights",
    };
    one_sequence(report, random, name, &problem, calls);
}

/// More rows than a block of `dot` has: each of the two norms with plain cycles and with GCR in turn, and a solve that iterates
/// first.
fn large(report: &mut Report, random: &mut Random, turn: u64) {
    let (norm, gcr) = (turn % 2, turn / 2 % 2 == 1);
    let problem = loop {
        let mut problem = Problem::large(random);
        problem.options.residual_norm = match norm {
            0 => MultigridResidualNorm::AbsoluteL2,
            _ => MultigridResidualNorm::NormalizedL1,
        };
        if gcr == (problem.options.krylov_dimension > 0)
            && crate::build::expected::build(&problem).answer.is_ok()
        {
            break problem;
        }
    };
    let rows = problem.arrays.rows;
    let first = Call::Solve {
        rhs: (0..rows).map(|_| random.unit()).collect(),
        x: (0..rows).map(|_| random.unit()).collect(),
        options: LinearSolverOptions {
            max_iterations: 4,
            ..LinearSolverOptions::default()
        },
    };
    let others = [
        draw_solve(random, rows),
        Call::Update(draw_values(random, &problem)),
    ];
    let calls = [vec![first.clone()], others.to_vec(), vec![first]].concat();
    let name = match (norm, gcr) {
        (0, false) => "sequence/large/AbsoluteL2/plain",
        (0, true) => "sequence/large/AbsoluteL2/gcr",
        (_, false) => "sequence/large/NormalizedL1/plain",
        (_, true) => "sequence/large/NormalizedL1/gcr",
    };
    one_sequence(report, random, name, &problem, calls);
}

/// One hierarchy, refreshed and solved with for long: the last answer is still that of a fresh build.
fn weeks(report: &mut Report, random: &mut Random, effort: Effort) {
    let problem = loop {
        let problem = accepted(random, any_problem);
        if problem.weights.is_some() && problem.arrays.rows > 20 {
            break problem;
        }
    };
    let calls = (0..effort.times(200, 20_000)).map(|_| match random.below(2) {
        0 => Call::Update(draw_values(random, &problem)),
        _ => draw_solve(random, problem.arrays.rows),
    });
    let calls = calls.collect();
    one_sequence(report, random, "sequence/weeks", &problem, calls);
}

fn any_problem(random: &mut Random) -> Problem {
    Problem::draw(random).1
}

/// A problem with rows that builds, of those drawn so.
pub fn accepted(random: &mut Random, draw: fn(&mut Random) -> Problem) -> Problem {
    loop {
        let problem = draw(random);
        let rows = problem.arrays.rows;
        if rows > 0 && crate::build::expected::build(&problem).answer.is_ok() {
            return problem;
        }
    }
}

#[derive(Clone)]
pub enum Call {
    Update(Arrays),
    Solve {
        rhs: Vec<f64>,
        x: Vec<f64>,
        options: LinearSolverOptions,
    },
}

pub fn draw_calls(random: &mut Random, problem: &Problem) -> Vec<Call> {
    let updates = random.below(2) == 0;
    let count = 1 + random.index(if updates { 12 } else { 4 });
    (0..count)
        .map(|_| {
            if updates && random.below(2) == 0 {
                Call::Update(draw_values(random, problem))
            } else {
                draw_solve(random, problem.arrays.rows)
            }
        })
        .collect()
}

/// The pattern of the build, mostly, with new values.
pub fn draw_values(random: &mut Random, problem: &Problem) -> Arrays {
    let mut arrays = spoiled_values(random, problem);
    // An update is not told the rows.
    arrays.rows = problem.arrays.rows;
    arrays
}

fn spoiled_values(random: &mut Random, problem: &Problem) -> Arrays {
    let mut arrays = problem.arrays.clone();
    let near = random.pick(&[0.001, 0.1, 0.5]);
    for value in &mut arrays.values {
        *value *= 1.0 + near * random.unit();
    }
    mirror(&mut arrays);
    if random.below(4) == 0 {
        shake(&mut arrays, random);
    }
    match random.below(12) {
        0 => {
            let (_, damage) = random.pick(&crate::csr::DAMAGES);
            damage(&mut arrays, random);
        }
        1 => {
            if let Some(value) = crate::csr::any(&mut arrays.values, random) {
                *value = random.pick(&[0.0, -1.0, f64::NAN, f64::INFINITY, 1e-320, 1e308]);
            }
        }
        2 => {
            let scale = random.pick(&[1e-300, 1e300, -1.0, 0.0, 1e-20, 2.0]);
            arrays.values.iter_mut().for_each(|value| *value *= scale);
        }
        3 => {
            let row = random.index(arrays.rows);
            let scale = random.pick(&[0.01, 0.3, 1e-310, 1e10]);
            if let Some(entry) = crate::build::problem::entry_of(&arrays, row, row) {
                arrays.values[entry] *= scale;
            }
        }
        _ => (),
    }
    arrays
}

/// Each lower value is its upper one.
fn mirror(arrays: &mut Arrays) {
    for row in 0..arrays.rows {
        let own = arrays.offsets[row] as usize..arrays.offsets[row + 1] as usize;
        for entry in own {
            let column = arrays.columns[entry] as usize;
            if column > row
                && let Some(lower) = crate::build::problem::entry_of(arrays, column, row)
            {
                arrays.values[lower] = arrays.values[entry];
            }
        }
    }
}

pub fn draw_solve(random: &mut Random, rows: usize) -> Call {
    let scale = random.pick(&[1.0, 1.0, 1.0, 1.0, 1e-12, 1e-160, 1e-310, 1e150, 1e300]);
    let vector = |random: &mut Random, zeros: u64| -> Vec<f64> {
        let zero = random.below(zeros) == 0;
        (0..rows)
            .map(|_| if zero { 0.0 } else { scale * random.unit() })
            .collect()
    };
    let mut rhs = vector(random, 8);
    let mut x = vector(random, 2);
    match random.below(20) {
        0 => rhs.push(1.0),
        1 => drop(x.pop()),
        2 => {
            let bad = random.pick(&[f64::NAN, f64::INFINITY, f64::MAX, 5e-324]);
            let vector = if random.below(2) == 0 {
                &mut rhs
            } else {
                &mut x
            };
            if let Some(place) = crate::csr::any(vector, random) {
                *place = bad;
            }
        }
        _ => (),
    }
    let tolerances = [0.0, -0.0, 1e-8, 1e-3, 0.5, 0.9];
    let mut options = LinearSolverOptions {
        absolute_tolerance: random.pick(&[0.0, -0.0, 1e-300, 1e-10]),
        relative_tolerance: random.pick(&tolerances),
        max_iterations: random.pick(&[1, 2, 3, 5, 10, 30]),
    };
    match random.below(24) {
        0 => options.max_iterations = 0,
        1 => options.absolute_tolerance = random.pick(&[f64::NAN, -1.0, f64::INFINITY]),
        2 => options.relative_tolerance = random.pick(&[f64::NAN, -1.0, f64::INFINITY]),
        3 => options.relative_tolerance = f64::MAX,
        4 => {
            options.max_iterations = u64::MAX;
            options.relative_tolerance = 0.9;
            options.absolute_tolerance = f64::MAX;
        }
        _ => (),
    }
    Call::Solve { rhs, x, options }
}

/// Both sides of a sequence.
struct Session<'a> {
    problem: &'a Problem,
    handle: Handle,
    stores: Stores,
    theirs: AlgebraicMultigrid,
    /// The statistics that are due: the Rust counts refused solves too.
    statistics: Vec<MultigridLevelStatistics>,
    /// The Rust's one number for the sweeps of each level, in the accepted solves since the counters started.
    sweeps: Vec<u64>,
    /// The latest accepted values.
    arrays: Arrays,
    /// The hierarchy that is due.
    hierarchy: Hierarchy,
}

fn one_sequence(
    report: &mut Report,
    random: &mut Random,
    kind: &str,
    problem: &Problem,
    calls: Vec<Call>,
) {
    let mut stores = noisy(random, &problem.lent);
    let Ok(handle) = crate::build::library::handle(problem, &mut stores) else {
        let kind = report.kind("sequence/build");
        report.case(kind, false, || {
            "a build that is accepted refuses".to_string()
        });
        return;
    };
    let mut session = Session {
        problem,
        handle,
        statistics: stores.statistics.clone(),
        sweeps: all_sweeps(&stores.statistics),
        stores,
        theirs: theirs(problem, &problem.arrays).expect("the Rust builds what it has built"),
        arrays: problem.arrays.clone(),
        hierarchy: crate::build::expected::build(problem)
            .answer
            .unwrap_or_default(),
    };
    if random.below(8) == 0 {
        session.near_the_end(random);
    }
    let kind = report.kind(kind);
    for (index, call) in calls.iter().enumerate() {
        let found = match call {
            Call::Update(arrays) => session.update(report, arrays),
            Call::Solve { rhs, x, options } => session.solve(report, random, rhs, x, *options),
        };
        let agrees = found.is_none();
        report.case(kind, agrees, || {
            let found = found.unwrap_or_default();
            let (rows, options) = (problem.arrays.rows, problem.options);
            format!("call {index}: {found}; {rows} rows, {options:?}")
        });
        if !agrees {
            return;
        }
    }
}

/// The Rust's one number for the sweeps of each level.
fn all_sweeps(statistics: &[MultigridLevelStatistics]) -> Vec<u64> {
    let sweeps = statistics.iter().map(|level| level.smoothing_sweeps());
    sweeps.collect()
}

/// The Rust's hierarchy of the problem with those values.
pub fn theirs(problem: &Problem, arrays: &Arrays) -> Option<AlgebraicMultigrid> {
    let matrix = arrays.container().ok()?;
    let built = during_build(|| match &problem.weights {
        Some(weights) => {
            AlgebraicMultigrid::new_with_face_weights(&matrix, weights, problem.options)
        }
        None => AlgebraicMultigrid::new(&matrix, problem.options),
    });
    built.ok()
}

impl Session<'_> {
    /// Counters that are about to stop.
    fn near_the_end(&mut self, random: &mut Random) {
        for record in &mut self.stores.statistics {
            record.visits = u64::MAX - random.below(4);
            for sweeps in [&mut record.pre_sweeps, &mut record.post_sweeps] {
                *sweeps = random.pick(&[u64::MAX, u64::MAX - 3, u64::MAX / 2, u64::MAX / 2 - 3, 0]);
            }
            record.coarse_iterations = u64::MAX - random.below(4);
        }
        self.statistics = self.stores.statistics.clone();
        self.sweeps = all_sweeps(&self.statistics);
    }

    /// Sweeps before and after corrections together beside the Rust's one number, where both stop at the end of u64.
    fn swept(&mut self, report: &mut Report, made: &[u64]) -> Option<String> {
        let levels = self.sweeps.iter_mut().zip(&self.stores.statistics);
        for (depth, ((sweeps, record), made)) in levels.zip(made).enumerate() {
            *sweeps = sweeps.saturating_add(*made);
            let (pre, post) = (record.pre_sweeps, record.post_sweeps);
            if pre.saturating_add(post) != *sweeps {
                return Some(format!(
                    "level {depth}: {pre} + {post} sweeps, the Rust {sweeps}"
                ));
            }
            let end = match (*sweeps, pre, post) {
                (u64::MAX, u64::MAX, _) | (u64::MAX, _, u64::MAX) => "one-counter-stopped",
                (u64::MAX, ..) => "the-sum-stopped",
                _ => "below-the-end",
            };
            report.answer(&format!("sequence/sweeps/{end}"));
            if depth <= 5 && *made > 0 {
                let before = match expected::sweeps_at(&self.problem.options, depth).0 {
                    0 => "none",
                    _ => "some",
                };
                report.answer(&format!("sequence/sweeps/depth-{depth}/{before}-before"));
            }
        }
        None
    }

    /// Whether the coarse solution that the last cycle added to the finest level has a minus zero. It stands in the scratch of a solve,
    /// behind right-hand side, solution, the pairs of GCR, the five vectors of the finest level and the next level's right-hand side.
    fn minus_zero_below(&self) -> bool {
        let [finest, next, ..] = self.hierarchy.levels.as_slice() else {
            return false;
        };
        let pairs = 2 * self.problem.options.krylov_dimension as usize;
        let from = 2 * self.hierarchy.floats() + (2 + pairs + 5) * finest.rows() + next.rows();
        let coarse = &self.stores.floats[from..][..next.rows()];
        coarse
            .iter()
            .any(|value| value.to_bits() == (-0.0_f64).to_bits())
    }

    /// What differs first, if anything does.
    fn update(&mut self, report: &mut Report, arrays: &Arrays) -> Option<String> {
        let due = expected::update(self.problem, &self.hierarchy, &self.arrays, arrays);
        let before = self.stores.clone();
        let (offsets, columns) = (&arrays.offsets, &arrays.columns);
        let ours = lent::update_values(
            &self.handle,
            offsets,
            columns,
            &arrays.values,
            &mut self.stores,
        );
        let ours = ours.map_err(told);
        report.answer(&format!("sequence/update/{}", class(due.as_ref().err())));
        if ours.as_ref().err() != due.as_ref().err() {
            let due = due.err();
            return Some(format!("update: ours {ours:?}, due {due:?}"));
        }
        if let Some(found) = self.kept(&before, due.is_err()) {
            return Some(format!("update: {found}"));
        }
        match due {
            Ok(hierarchy) => {
                self.hierarchy = hierarchy;
                self.arrays = arrays.clone();
                let matrix = arrays.container().expect("an accepted update has a matrix");
                if self.theirs.update_values(&matrix).is_err() {
                    return Some("update: the Rust refuses".to_string());
                }
            }
            // The Rust has no rollback: it is given the latest accepted values again.
            Err((number, ..)) => {
                if number > 10
                    && number != 31
                    && let Ok(matrix) = arrays.container()
                {
                    if self.theirs.update_values(&matrix).is_ok() {
                        return Some(format!("update: refused by {number}, the Rust accepts"));
                    }
                    let last = self.arrays.container().expect("accepted before");
                    self.theirs.update_values(&last).expect("accepted before");
                }
            }
        }
        self.view()
    }

    /// What differs first, if anything does.
    fn solve(
        &mut self,
        report: &mut Report,
        random: &mut Random,
        rhs: &[f64],
        x: &[f64],
        options: LinearSolverOptions,
    ) -> Option<String> {
        let due = expected::solve(
            self.problem,
            &mut self.theirs,
            rhs,
            x,
            options,
            &mut self.statistics,
        );
        let before = self.stores.clone();
        let mut y = x.to_vec();
        let ours = lent::solve(&self.handle, &mut self.stores, rhs, &mut y, options).map_err(told);
        report.answer(&format!("sequence/solve/{}", outcome(&due.answer)));
        if let (
            Some(system),
            Ok(LinearSolveReport {
                iterations: 1.., ..
            }),
        ) = (self.large(), &due.answer)
        {
            report.answer(&format!("sequence/solve/{system}"));
        }
        if let Some(found) = differs(&ours, &y, &due) {
            return Some(format!("solve: {found}"));
        }
        if !self.problem.options.scale_correction && due.answer.is_ok() && self.minus_zero_below() {
            report.answer("unscaled/solve/minus-zero-below");
        }
        if self.stores.statistics != self.statistics {
            let (ours, due) = (&self.stores.statistics, &self.statistics);
            return Some(format!("solve: statistics {ours:?}, due {due:?}"));
        }
        if let Some(found) = self.swept(report, &due.sweeps) {
            return Some(format!("solve: {found}"));
        }
        let refused = ours.is_err();
        if let Some(found) = self.kept(&before, refused).or_else(|| self.view()) {
            return Some(format!("solve: {found}"));
        }
        self.fresh(report, random, rhs, x, options, &due)
    }

    /// The norm and the kind of iterations, of a system with more rows than a block of `dot` has.
    fn large(&self) -> Option<String> {
        let options = &self.problem.options;
        let (norm, rows) = (options.residual_norm, self.problem.arrays.rows);
        let kind = match options.krylov_dimension {
            0 => "plain",
            _ => "gcr",
        };
        (rows > BLOCK).then(|| format!("large/{norm:?}/{kind}"))
    }

    /// Words are never written; refused, the statistics and the floats below the scratch stay.
    fn kept(&self, before: &Stores, refused: bool) -> Option<String> {
        if self.stores.words != before.words {
            return Some("a word was written".to_string());
        }
        if !refused {
            return None;
        }
        if self.stores.statistics != before.statistics {
            return Some("refused, the statistics changed".to_string());
        }
        let image = self.hierarchy.floats();
        let mut floats = self.stores.floats[..image].iter().zip(&before.floats);
        floats
            .any(|(now, then)| now.to_bits() != then.to_bits())
            .then(|| "refused, the image changed".to_string())
    }

    /// The hierarchy in the stores beside the one that is due. The values of the levels are no part of it: an update leaves those of
    /// the build, and its own stand as coefficients and diagonal.
    fn view(&self) -> Option<String> {
        match Hierarchy::read(self.handle.levels as usize, &self.stores) {
            Some(mut view) => {
                for (level, due) in view.levels.iter_mut().zip(&self.hierarchy.levels) {
                    level.values.clone_from(&due.values);
                }
                view.difference(&self.hierarchy)
            }
            None => Some("the levels pass the end of a store".to_string()),
        }
    }

    /// After a build with weights: the same solve by a hierarchy that is built afresh in other stores.
    fn fresh(
        &self,
        report: &mut Report,
        random: &mut Random,
        rhs: &[f64],
        x: &[f64],
        options: LinearSolverOptions,
        due: &expected::Solved,
    ) -> Option<String> {
        self.problem.weights.as_ref()?;
        let afresh = Problem {
            arrays: self.arrays.clone(),
            lent: Lent {
                words: self.problem.lent.words + random.index(20),
                floats: self.problem.lent.floats + random.index(20),
                ..self.problem.lent
            },
            ..self.problem.clone()
        };
        let mut stores = noisy(random, &afresh.lent);
        let Ok(handle) = crate::build::library::handle(&afresh, &mut stores) else {
            report.answer("sequence/fresh/build-refused");
            return None;
        };
        report.answer("sequence/fresh/build-accepted");
        let mut y = x.to_vec();
        let fresh = lent::solve(&handle, &mut stores, rhs, &mut y, options).map_err(told);
        differs(&fresh, &y, due).map(|found| format!("fresh: {found}"))
    }
}

fn told(refusal: Refusal) -> Refused {
    (refusal.number(), refusal.level(), refusal.row())
}

fn class(refused: Option<&Refused>) -> String {
    match refused {
        None => "accepted".to_string(),
        Some((number, level, _)) if *level > 0 => format!("refused-{number:02}/below-finest"),
        Some((number, ..)) => format!("refused-{number:02}"),
    }
}

fn outcome(answer: &Result<LinearSolveReport, Refused>) -> String {
    match answer {
        Err(refused) => class(Some(refused)),
        Ok(report) => match (report.status, report.iterations) {
            (LinearSolverStatus::Converged, 0) => "converged-at-once".to_string(),
            (LinearSolverStatus::Converged, _) => "converged".to_string(),
            (LinearSolverStatus::MaxIterations, _) => "iterations-used-up".to_string(),
        },
    }
}

/// What differs first between our answer with its solution and the one that is due.
fn differs(
    ours: &Result<LinearSolveReport, Refused>,
    y: &[f64],
    due: &expected::Solved,
) -> Option<String> {
    let agree = match (ours, &due.answer) {
        (Err(ours), Err(due)) => ours == due,
        (Ok(ours), Ok(due)) => {
            ours.status == due.status
                && ours.iterations == due.iterations
                && same(ours.initial_residual, due.initial_residual)
                && same(ours.final_residual, due.final_residual)
                && same(ours.relative_residual, due.relative_residual)
        }
        _ => false,
    };
    if !agree {
        return Some(format!("ours {ours:?}, due {:?}", due.answer));
    }
    let mut pairs = y.iter().zip(&due.x);
    let at = pairs.position(|(&ours, &due)| !same(ours, due))?;
    let (ours, due) = (hex(y[at]), hex(due.x[at]));
    Some(format!("x {at}: {ours} beside {due}"))
}
