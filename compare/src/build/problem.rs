//! Problems of a build: a matrix in compressed rows, weights, controls and the sizes of what is lent.

use super::expected::{self, Charge};
use crate::capped;
use crate::csr::{Arrays, DAMAGES, WEIGHTS, any};
use crate::numbers;
use crate::options;
use crate::pattern::{Pattern, Shape};
use crate::random::Random;
use crate::stores::Word;
use multigrid::MultigridLevelStatistics;
pub use multigrid::lent::Stores;
use oracle::{MultigridCoarseSolver, MultigridOptions, MultigridSmoother};

/// How many words, floats and records of statistics are lent.
#[derive(Clone, Copy, Debug)]
pub struct Lent {
    pub words: usize,
    pub floats: usize,
    pub statistics: usize,
}

#[derive(Clone)]
pub struct Problem {
    pub arrays: Arrays,
    pub weights: Option<Vec<f64>>,
    pub options: MultigridOptions,
    /// The cap on aggregates, which the Rust has not: 0 for none.
    pub cap: u64,
    pub lent: Lent,
}

/// Stores full of noise.
pub fn noisy(random: &mut Random, lent: &Lent) -> Stores {
    Stores {
        words: (0..lent.words).map(|_| u32::noise(random)).collect(),
        floats: (0..lent.floats).map(|_| f64::noise(random)).collect(),
        statistics: (0..lent.statistics).map(|_| noise(random)).collect(),
    }
}

fn noise(random: &mut Random) -> MultigridLevelStatistics {
    MultigridLevelStatistics {
        cells: random.bits(),
        visits: random.bits(),
        pre_sweeps: random.bits(),
        post_sweeps: random.bits(),
        coarse_iterations: random.bits(),
    }
}

/// Whether every word of them is zero; minus zero is none.
pub fn are_zero(stores: &Stores) -> bool {
    stores.words.iter().all(|&word| word == 0)
        && stores.floats.iter().all(|float| float.to_bits() == 0)
        && stores
            .statistics
            .iter()
            .all(|&record| record == MultigridLevelStatistics::default())
}

type Draw = fn(&mut Random) -> f64;

/// Values off the diagonal.
const COUPLINGS: [(&str, Draw); 9] = [
    ("ordinary", |random| -0.001 - random.unit().abs()),
    ("mixed-signs", |random| random.unit()),
    ("whole", |random| -((1 + random.below(4)) as f64)),
    ("some-zero", |random| random.pick(&[0.0, -0.0, -1.0, -0.5])),
    ("zero", |random| random.signed(0.0)),
    ("spread", |random| {
        -random.unit().abs() * f64::powi(2.0, random.below(200) as i32 - 100)
    }),
    ("tiny", |random| {
        random.unit() * f64::powi(2.0, -(random.within(500, 1070) as i32))
    }),
    ("huge", |random| {
        random.unit() * f64::powi(2.0, random.within(900, 1023) as i32)
    }),
    ("cancelling", |random| {
        let size = random.pick(&[1.0, 0.1, 1e308]);
        random.signed(size)
    }),
];

const STRENGTHS: [Draw; 8] = [
    |random| random.unit().abs(),
    |_| 1.0,
    |random| random.pick(&[0.0, 0.5, 1.0, 2.0]),
    |_| 0.0,
    |random| random.signed(0.0),
    |random| f64::from_bits(random.bits() >> random.within(12, 63)),
    |random| random.unit().abs() * f64::MAX,
    |random| random.pick(&[0.0, f64::MAX]),
];

/// How much of the sum of its row each diagonal is: at 1 the sums vanish on the coarsest level.
const SHARES: [f64; 10] = [0.4, 0.7, 0.95, 1.0, 1.0, 1.001, 1.1, 1.5, 2.0, 4.0];

/// What stands in the place of a diagonal.
const OWN: [f64; 10] = [
    0.0,
    -0.0,
    -1.0,
    5e-324,
    1e-310,
    1e-300,
    f64::MAX,
    f64::INFINITY,
    f64::NEG_INFINITY,
    f64::NAN,
];

type Spoil = fn(&mut Problem, &mut Random);

/// Each spoils one thing, where there is one; what is spoiled may still pass.
const SPOILS: [(&str, Spoil); 11] = [
    ("arrays", |problem, random| {
        let (_, damage) = random.pick(&DAMAGES);
        damage(&mut problem.arrays, random);
    }),
    ("one-weight", |problem, random| {
        let entries = problem.arrays.columns.len();
        let weights = problem.weights.get_or_insert_with(|| vec![1.0; entries]);
        let (_, weight, _) = random.pick(&WEIGHTS);
        if let Some(place) = any(weights, random) {
            *place = weight;
        }
    }),
    ("weight-count", |problem, random| {
        let entries = problem.arrays.columns.len();
        let counts = [0, entries + 1, entries.saturating_sub(1)];
        problem.weights = Some(vec![1.0; random.pick(&counts)]);
    }),
    ("controls", |problem, random| {
        problem.options = options::any(random);
    }),
    ("not-cholesky", |problem, _| {
        problem.options.coarse_solver = MultigridCoarseSolver::PcgDic;
    }),
    ("no-rows", |problem, _| {
        problem.arrays = Arrays {
            rows: 0,
            offsets: vec![0],
            columns: vec![],
            values: vec![],
        };
        problem.weights = problem.weights.take().map(|_| vec![]);
    }),
    ("one-diagonal", |problem, random| {
        let own = random.pick(&OWN);
        let row = random.index(problem.arrays.rows);
        if let Some(entry) = entry_of(&problem.arrays, row, row) {
            problem.arrays.values[entry] = own;
        }
    }),
    ("one-value", |problem, random| {
        if let Some(value) = any(&mut problem.arrays.values, random) {
            let near = *value * (1.0 + f64::EPSILON);
            let others = [near, -*value, 0.0, -0.0, f64::NAN, f64::INFINITY];
            *value = random.pick(&others);
        }
    }),
    ("one-face", |problem, random| {
        let value = random.pick(&[0.0, -0.0, 1e-320, 1e308, f64::NAN, f64::NEG_INFINITY]);
        let entry = random.index(problem.arrays.columns.len());
        let row = row_of(&problem.arrays, entry);
        let column = problem.arrays.columns[entry] as usize;
        for (row, column) in [(row, column), (column, row)] {
            if let Some(entry) = entry_of(&problem.arrays, row, column) {
                problem.arrays.values[entry] = value;
            }
        }
    }),
    ("entry-missing", |problem, random| {
        let entry = random.index(problem.arrays.columns.len());
        let row = row_of(&problem.arrays, entry);
        problem.arrays.columns.remove(entry);
        problem.arrays.values.remove(entry);
        if let Some(weights) = &mut problem.weights {
            weights.remove(entry);
        }
        for offset in &mut problem.arrays.offsets[row + 1..] {
            *offset -= 1;
        }
    }),
    ("small-pivot", |problem, random| {
        small_pivot(&mut problem.arrays);
        if let Some(weights) = &mut problem.weights {
            weights.extend([1.0; 4]);
        }
        if random.below(2) == 0 {
            problem.options.smoother = MultigridSmoother::DicGaussSeidel;
        }
    }),
];

/// The value moved by units in its last place, or by about what question 10 lets pass.
pub fn shaken(value: f64, random: &mut Random) -> f64 {
    match random.below(3) {
        0 => {
            let units = random.within(1, 4);
            f64::from_bits(value.to_bits().wrapping_add(units))
        }
        1 => {
            let units = random.within(1, 4);
            f64::from_bits(value.to_bits().wrapping_sub(units))
        }
        _ => {
            let most = expected::TOLERANCE;
            let sizes = [
                0.5 * most,
                most.next_down(),
                most,
                most,
                most.next_up(),
                1.5 * most,
            ];
            let size = random.pick(&sizes);
            value + random.signed(size)
        }
    }
}

/// The two sides of a face, of some or of all, no longer equal.
pub fn shake(arrays: &mut Arrays, random: &mut Random) {
    let share = random.pick(&[1, 1, 2, 8]);
    for row in 0..arrays.rows {
        for entry in arrays.offsets[row] as usize..arrays.offsets[row + 1] as usize {
            if arrays.columns[entry] as usize != row && random.below(2 * share) == 0 {
                arrays.values[entry] = shaken(arrays.values[entry], random);
            }
        }
    }
}

/// Two rows more, coupled with each other alone: the pivot of the second is 2^-1052, and its reciprocal infinite.
pub fn small_pivot(arrays: &mut Arrays) {
    let (row, entries) = (arrays.rows as u32, arrays.columns.len() as u32);
    let coupling = f64::powi(2.0, -500);
    let own = f64::powi(2.0, -1000) * (1.0 + f64::EPSILON);
    arrays.rows += 2;
    arrays.offsets.extend([entries + 2, entries + 4]);
    arrays.columns.extend([row, row + 1, row, row + 1]);
    arrays.values.extend([1.0, coupling, coupling, own]);
}

fn row_of(arrays: &Arrays, entry: usize) -> usize {
    arrays.offsets.partition_point(|&end| end as usize <= entry) - 1
}

pub fn entry_of(arrays: &Arrays, row: usize, column: usize) -> Option<usize> {
    let own = arrays.offsets[row] as usize..arrays.offsets[row + 1] as usize;
    own.into_iter()
        .find(|&entry| arrays.columns[entry] as usize == column)
}

impl Problem {
    /// A problem of 1 to 64 rows, at times with one thing spoiled, and its kind.
    pub fn draw(random: &mut Random) -> (String, Self) {
        let (kind, mut problem) = Self::sound(random);
        let mut name = kind.to_string();
        if random.below(3) == 0 {
            let (spoiled, spoil) = random.pick(&SPOILS);
            spoil(&mut problem, random);
            name = format!("spoiled-{spoiled}");
        }
        let lent = problem.lend(random);
        if lent != ENOUGH && !name.starts_with("spoiled") {
            name = lent.to_string();
        }
        (name, problem)
    }

    /// A sound problem, but that the two sides of its faces differ a little.
    pub fn with_shaken_mirrors(random: &mut Random) -> Self {
        let (_, mut problem) = Self::sound(random);
        shake(&mut problem.arrays, random);
        problem.lend(random);
        problem
    }

    /// A sound problem with a cap on its aggregates: a star, a long narrow grid or any shape.
    pub fn capped(random: &mut Random) -> Self {
        let (_, mut problem) = match random.below(3) {
            0 => {
                let rows = random.within(3, 64) as usize;
                let star = Shape::Star.full(random, rows);
                Self::on(&star, random)
            }
            1 => {
                let (wide, long) = (random.within(1, 4), random.within(8, 40));
                Self::on(&Pattern::rectangle(wide as usize, long as usize), random)
            }
            _ => Self::sound(random),
        };
        problem.cap = random.pick(&capped::CAPS);
        problem.lend(random);
        problem
    }

    /// A sound problem whose corrections are added as they are.
    pub fn unscaled(random: &mut Random) -> Self {
        let (_, mut problem) = Self::sound(random);
        problem.options.scale_correction = false;
        problem.lend(random);
        problem
    }

    /// More rows than a block of `dot` has, values with which a build is accepted, and what it asks for lent.
    pub fn large(random: &mut Random) -> Self {
        let rows = numbers::many_rows(random);
        let shape = random.pick(&[Shape::Path, Shape::Grid, Shape::Random]);
        let pattern = match shape {
            Shape::Grid => Pattern::grid(1 + rows.isqrt()),
            _ => shape.full(random, rows),
        };
        let pattern = pattern.reordered(random);
        let mut values = pattern.numbers(true, || -0.001 - random.unit().abs());
        set_diagonals(&pattern, &mut values, 1.1);
        let given = random.below(2) == 0;
        let weights = given.then(|| pattern.numbers(true, || random.unit().abs()));
        let mut problem = Self {
            arrays: arrays_of(&pattern, values),
            weights,
            options: controls(random),
            cap: 0,
            lent: Lent::PLENTY,
        };
        problem.options.max_levels = 64;
        let charges = expected::build(&problem).charges;
        let last = charges.last().copied().unwrap_or_default();
        problem.lent = Lent::of(last, problem.options.max_levels);
        problem
    }

    /// Questions 1 to 11 pass, if the stores do.
    fn sound(random: &mut Random) -> (&'static str, Self) {
        let most = random.pick(&[3, 10, 30, 64, 64]);
        let rows = 1 + random.index(most);
        let (_, shape) = random.pick(&Shape::ALL);
        let mut pattern = shape.full(random, rows);
        if random.below(2) == 0 {
            pattern = pattern.reordered(random);
        }
        Self::on(&pattern, random)
    }

    /// The same on a pattern.
    fn on(pattern: &Pattern, random: &mut Random) -> (&'static str, Self) {
        let (name, draw) = random.pick(&COUPLINGS);
        let mut values = pattern.numbers(true, || draw(random));
        let share = random.pick(&SHARES);
        set_diagonals(pattern, &mut values, share);
        let given = random.below(2) == 0;
        let weights = given.then(|| {
            let strength = random.pick(&STRENGTHS);
            let symmetric = random.below(4) != 0;
            pattern.numbers(symmetric, || strength(random))
        });
        let problem = Self {
            arrays: arrays_of(pattern, values),
            weights,
            options: controls(random),
            cap: 0,
            lent: Lent::PLENTY,
        };
        (name, problem)
    }

    /// Draws what is lent: enough, exactly enough, or a word short of something that question 9 asks for.
    fn lend(&mut self, random: &mut Random) -> &'static str {
        self.lent = Lent::PLENTY;
        let charges = expected::build(self).charges;
        let Some(&last) = charges.last() else {
            // Refused before question 9: any sizes.
            let sizes = [(); 3].map(|()| random.index(100));
            let [words, floats, statistics] = sizes;
            self.lent = Lent {
                words,
                floats,
                statistics,
            };
            return ENOUGH;
        };
        let records = self.options.max_levels;
        self.lent = Lent::of(last, records);
        match random.below(12) {
            0..=3 => return "exactly-enough",
            4 => {
                self.lent = Lent::of(random.pick(&charges), records);
                self.lent.words -= 1;
                return "a-word-short";
            }
            5 => {
                self.lent = Lent::of(random.pick(&charges), records);
                self.lent.floats -= 1;
                return "a-float-short";
            }
            6 if random.below(2) == 0 => {
                self.lent.statistics -= 1;
                return "a-record-short";
            }
            _ => (),
        }
        self.lent.words += random.index(50);
        self.lent.floats += random.index(50);
        self.lent.statistics += random.index(3);
        ENOUGH
    }
}

const ENOUGH: &str = "enough";

impl Lent {
    /// More than any charge of a small problem, to learn what it asks for.
    pub const PLENTY: Self = Self {
        words: usize::MAX,
        floats: usize::MAX,
        statistics: usize::MAX,
    };

    pub fn of(charge: Charge, statistics: usize) -> Self {
        Self {
            words: charge.words,
            floats: charge.floats,
            statistics,
        }
    }
}

pub fn arrays_of(pattern: &Pattern, values: Vec<f64>) -> Arrays {
    let words = |numbers: &[usize]| numbers.iter().map(|&number| number as u32).collect();
    Arrays {
        rows: pattern.rows(),
        offsets: words(&pattern.offsets),
        columns: words(&pattern.columns),
        values,
    }
}

/// Each diagonal as that share of the absolute values beside it, or as the share where there are none.
pub fn set_diagonals(pattern: &Pattern, values: &mut [f64], share: f64) {
    for (row, entry) in pattern.diagonals().into_iter().enumerate() {
        let own = pattern.offsets[row]..pattern.offsets[row + 1];
        values[entry] = 0.0;
        let sum: f64 = values[own].iter().map(|value| value.abs()).sum();
        values[entry] = if sum > 0.0 { sum * share } else { share };
        if !values[entry].is_finite() {
            values[entry] = f64::MAX;
        }
    }
}

/// Valid controls with Cholesky: few coarsest cells, so that most problems have levels.
fn controls(random: &mut Random) -> MultigridOptions {
    let drawn = options::valid(random);
    let any_levels = drawn.max_levels;
    MultigridOptions {
        coarse_solver: MultigridCoarseSolver::Cholesky,
        coarsest_cells: random.pick(&[1, 1, 1, 2, 2, 3, 5, 10, drawn.coarsest_cells]),
        max_levels: random.pick(&[1, 2, 3, 8, 20, 64, 128, any_levels]),
        ..drawn
    }
}
