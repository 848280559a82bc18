//! `validate` of `options` beside that of options.rs.

use crate::Effort;
use crate::boundary;
use crate::random::Random;
use crate::report::{KindId, Report};
use oracle::{MultigridCoarseSolver, MultigridOptions, MultigridResidualNorm, MultigridSmoother};

type Break = fn(&mut MultigridOptions, &mut Random);

/// Each breaks one condition of `validate` and leaves the others as they are.
const BREAKS: [Break; 18] = [
    |controls, _| {
        controls.max_sweeps = 0;
        controls.pre_sweeps = 0;
        controls.post_sweeps = 0;
    },
    |controls, random| controls.max_sweeps = above(random, 64),
    |controls, random| controls.pre_sweeps = above(random, controls.max_sweeps),
    |controls, random| controls.post_sweeps = above(random, controls.max_sweeps),
    |controls, _| controls.finest_sweeps = 0,
    |controls, random| controls.finest_sweeps = above(random, 64),
    |controls, _| controls.coarsest_cells = 0,
    |controls, random| controls.coarsest_cells = above(random, 256),
    |controls, _| controls.max_levels = 0,
    |controls, random| controls.max_levels = above(random, 128),
    |controls, _| controls.merge_levels = 0,
    |controls, random| controls.merge_levels = above(random, 4),
    |controls, random| controls.krylov_dimension = above(random, 16),
    |controls, random| controls.coarse_absolute_tolerance = random.pick(&NOT_FINITE),
    |controls, random| controls.coarse_absolute_tolerance = random.pick(&BELOW_ZERO),
    |controls, random| controls.coarse_relative_tolerance = random.pick(&NOT_FINITE),
    |controls, random| controls.coarse_relative_tolerance = random.pick(&BELOW_ZERO),
    |controls, _| controls.coarse_max_iterations = 0,
];

/// Document 02's range: no cap, or 2 to 65,535.
const CAPS: [(u64, bool); 8] = [
    (0, true),
    (1, false),
    (2, true),
    (3, true),
    (65_535, true),
    (65_536, false),
    (65_537, false),
    (u64::MAX, false),
];

const NOT_FINITE: [f64; 2] = [f64::NAN, f64::INFINITY];
const BELOW_ZERO: [f64; 4] = [-1.0, -f64::MIN_POSITIVE, -5e-324, f64::MIN];
const TOLERANCES: [f64; 6] = [0.0, -0.0, 5e-324, 1e-12, 0.01, f64::MAX];

pub fn compare(report: &mut Report, random: &mut Random, effort: Effort) {
    let valid_kind = report.kind("options/validate/valid");
    let one_kind = report.kind("options/validate/one-condition-broken");
    let two_kind = report.kind("options/validate/two-conditions-broken");
    let any_kind = report.kind("options/validate/random");
    let cap_kind = report.kind("options/validate/cap");
    for _ in 0..effort.times(1_000, 20_000) {
        let valid = valid(random);
        one_case(report, valid_kind, &valid, Some(true));
        one_case(report, any_kind, &any(random), None);
        for (cap, allowed) in CAPS {
            let agrees = boundary::validate(&valid, cap) == allowed;
            report.case(cap_kind, agrees, || format!("{cap} with {valid:?}"));
        }
        for first in BREAKS {
            let mut broken = valid;
            first(&mut broken, random);
            one_case(report, one_kind, &broken, Some(false));
            for second in BREAKS {
                let mut twice = broken;
                second(&mut twice, random);
                one_case(report, two_kind, &twice, None);
            }
        }
    }
}

/// Where the case was made to pass or to fail, `said` is that: it shows that the case is what its kind says.
fn one_case(report: &mut Report, kind: KindId, controls: &MultigridOptions, said: Option<bool>) {
    let (ours, theirs) = (boundary::validate(controls, 0), controls.validate().is_ok());
    let answer = if theirs { "passes" } else { "refuses" };
    report.answer(&format!("options/validate/{answer}"));
    let agrees = ours == theirs && said.is_none_or(|said| theirs == said);
    report.case(kind, agrees, || {
        format!("ours {ours} theirs {theirs} of {controls:?}")
    });
}

/// Controls that pass, ends of the ranges included.
pub fn valid(random: &mut Random) -> MultigridOptions {
    let max_sweeps = random.within(1, 64);
    let mut count = |low, high| random.within(low, high) as usize;
    let counts = MultigridOptions {
        pre_sweeps: count(0, max_sweeps),
        post_sweeps: count(0, max_sweeps),
        finest_sweeps: count(1, 64),
        max_sweeps: max_sweeps as usize,
        coarsest_cells: count(1, 256),
        max_levels: count(1, 128),
        merge_levels: count(1, 4),
        krylov_dimension: count(0, 16),
        ..MultigridOptions::default()
    };
    MultigridOptions {
        sweep_level_multiplier: random.sized() as usize,
        coarse_absolute_tolerance: random.pick(&TOLERANCES),
        coarse_relative_tolerance: random.pick(&TOLERANCES),
        coarse_max_iterations: (random.sized() as usize).max(1),
        ..with_enums(counts, random)
    }
}

/// Valid controls with a few numbers of any size in their place.
pub fn any(random: &mut Random) -> MultigridOptions {
    let mut controls = valid(random);
    for count in [
        &mut controls.pre_sweeps,
        &mut controls.post_sweeps,
        &mut controls.finest_sweeps,
        &mut controls.max_sweeps,
        &mut controls.coarsest_cells,
        &mut controls.max_levels,
        &mut controls.merge_levels,
        &mut controls.krylov_dimension,
        &mut controls.coarse_max_iterations,
    ] {
        if random.below(8) == 0 {
            *count = random.sized() as usize;
        }
    }
    for tolerance in [
        &mut controls.coarse_absolute_tolerance,
        &mut controls.coarse_relative_tolerance,
    ] {
        if random.below(8) == 0 {
            *tolerance = random.pattern();
        }
    }
    controls
}

fn with_enums(controls: MultigridOptions, random: &mut Random) -> MultigridOptions {
    MultigridOptions {
        smoother: random.pick(&[
            MultigridSmoother::GaussSeidel,
            MultigridSmoother::SymmetricGaussSeidel,
            MultigridSmoother::DicGaussSeidel,
        ]),
        residual_norm: random.pick(&[
            MultigridResidualNorm::AbsoluteL2,
            MultigridResidualNorm::NormalizedL1,
        ]),
        coarse_solver: random.pick(&[
            MultigridCoarseSolver::PcgDic,
            MultigridCoarseSolver::Cholesky,
        ]),
        scale_correction: random.pick(&[true, false]),
        ..controls
    }
}

fn above(random: &mut Random, limit: usize) -> usize {
    let further = random.index(1000);
    random.pick(&[limit + 1, limit + 2, limit + 1 + further, usize::MAX])
}
