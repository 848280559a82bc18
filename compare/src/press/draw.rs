//! Inputs of the program: the records of a problem as they should be, and the same spoiled in one way.

use super::model::{LENT, MOST_ENTRIES, MOST_ROWS};
use super::records;
use crate::build::expected as building;
use crate::build::problem::Problem;
use crate::capped;
use crate::csr::Arrays;
use crate::random::Random;
use crate::sequence::{self, Call};
use multigrid::LinearSolverOptions;

type Records = Vec<Vec<u8>>;

/// Some kind of input, and the bytes.
pub fn input(random: &mut Random) -> (&'static str, Vec<u8>) {
    let mut records = sound(random);
    if random.below(2) == 0 {
        return ("as-drawn", records.concat());
    }
    let (name, spoil) = random.pick(&SPOILS);
    spoil(&mut records, random);
    let mut bytes = records.concat();
    if random.below(8) == 0 {
        cut(&mut bytes, random);
    }
    (name, bytes)
}

/// CO, MX, FW where there are weights, and then updates and solves.
fn sound(random: &mut Random) -> Records {
    let problem = problem(random);
    let cap = match random.below(8) {
        0 => random.pick(&capped::CAPS),
        _ => 0,
    };
    let mut records = vec![
        records::controls(&problem.options, cap),
        records::matrix(&problem.arrays),
    ];
    if let Some(weights) = &problem.weights {
        records.push(records::weights(weights));
    }
    let calls = random.pick(&[0, 1, 1, 2, 3, 4, 6, 12]);
    // The Rust has no cap: half of these have updates alone, and solves of zeros, which show the levels and visit none.
    let known = cap != 0 && random.below(2) == 0;
    for _ in 0..calls {
        records.push(if known {
            update(random, &problem)
        } else {
            call(random, &problem)
        });
    }
    if known {
        let zero = vec![0.0; problem.arrays.rows.min(1_000)];
        records.push(records::solve(NOTHING, &zero, &zero));
    }
    records
}

const NOTHING: LinearSolverOptions = LinearSolverOptions {
    absolute_tolerance: 0.0,
    relative_tolerance: 0.0,
    max_iterations: 1,
};

/// Half of the problems are built into two levels or more by the program, so that there is something to solve.
fn problem(random: &mut Random) -> Problem {
    let wanted = random.below(2) == 0;
    loop {
        let mut problem = any_problem(random);
        problem.lent = LENT;
        let fits = problem.arrays.rows <= MOST_ROWS && problem.arrays.columns.len() <= MOST_ENTRIES;
        let levels = || {
            let built = building::build(&problem).answer;
            built.map_or(0, |hierarchy| hierarchy.levels.len())
        };
        if !wanted || (fits && levels() > 1) {
            return problem;
        }
    }
}

/// One that fits into the program, mostly.
fn any_problem(random: &mut Random) -> Problem {
    loop {
        let mut problem = match random.below(8) {
            0 => Problem::with_shaken_mirrors(random),
            _ => Problem::draw(random).1,
        };
        let (rows, entries) = (problem.arrays.rows, problem.arrays.columns.len());
        if rows > MOST_ROWS || entries > MOST_ENTRIES {
            if random.below(40) != 0 {
                continue;
            }
            problem.arrays.rows = rows.min(1_000);
        }
        return problem;
    }
}

fn update(random: &mut Random, problem: &Problem) -> Vec<u8> {
    let entries = problem.arrays.columns.len();
    let values = match problem.arrays.container() {
        Ok(matrix) if matrix.nrows() > 0 => sequence::draw_values(random, problem).values,
        _ => (0..entries).map(|_| random.unit()).collect(),
    };
    records::update(&values)
}

fn call(random: &mut Random, problem: &Problem) -> Vec<u8> {
    if random.below(3) == 0 {
        return update(random, problem);
    }
    match sequence::draw_solve(random, problem.arrays.rows.min(1_000)) {
        Call::Solve { rhs, x, options } => records::solve(options, &rhs, &x),
        Call::Update(Arrays { values, .. }) => records::update(&values),
    }
}

type Spoil = fn(&mut Records, &mut Random);

const SPOILS: [(&str, Spoil); 18] = [
    ("two-records-swapped", |records, random| {
        let (left, right) = (random.index(records.len()), random.index(records.len()));
        records.swap(left, right);
    }),
    ("first-records-in-another-order", |records, random| {
        let first = records.len().min(2 + random.index(2));
        let turn = 1 + random.index(first - 1);
        records[..first].rotate_left(turn);
    }),
    ("record-dropped", |records, random| {
        let place = random.index(records.len());
        records.remove(place);
    }),
    ("record-repeated", |records, random| {
        let again = records[random.index(records.len())].clone();
        let place = random.index(records.len() + 1);
        records.insert(place, again);
    }),
    ("cut", |records, random| {
        let mut bytes = records.concat();
        cut(&mut bytes, random);
        *records = vec![bytes];
    }),
    ("record-cut", |records, random| {
        let place = random.index(records.len());
        cut(&mut records[place], random);
    }),
    ("more-bytes", |records, random| {
        let count = random.pick(&[1, 1, 2, 3, 8, 200]);
        let bytes = (0..count).map(|_| random.bits() as u8).collect();
        let any = random.index(records.len());
        let place = random.pick(&[records.len(), records.len(), any]);
        records.insert(place, bytes);
    }),
    ("mark-alone", |records, random| {
        let mark = random.pick(&[b"CO", b"MX", b"FW", b"UP", b"SO"]);
        records.push(mark.to_vec());
    }),
    ("bytes-changed", |records, random| {
        for _ in 0..1 + random.index(3) {
            let place = random.index(records.len());
            let at = random.index(records[place].len().max(1));
            if let Some(byte) = records[place].get_mut(at) {
                *byte = random.pick(&[0, 1, 2, 0x7f, 0xff, *byte ^ 0x80]);
            }
        }
    }),
    ("mark-changed", |records, random| {
        let place = random.index(records.len());
        let marks = [
            b"CO", b"MX", b"FW", b"UP", b"SO", b"co", b"OC", b"S ", b"\0\0",
        ];
        let mark = random.pick(&marks);
        records[place][..2].copy_from_slice(mark);
    }),
    ("case-byte", |records, random| {
        let at = random.pick(&records::CASE_BYTES);
        records[0][at] = random.pick(&[0, 1, 2, 3, 255]);
    }),
    ("count-of-the-controls", |records, random| {
        // Nine counts behind two bytes, and one behind the tolerances.
        let at = random.pick(&[4, 12, 20, 28, 36, 44, 52, 60, 68, 93]);
        let near = random.below(300);
        let count = random.pick(&[0, 1, 2, 16, 17, 64, 65, 128, 129, 256, 257, near, u64::MAX]);
        put(&mut records[0], at, &count.to_le_bytes());
    }),
    ("tolerance-of-the-controls", |records, random| {
        let at = random.pick(&[77, 85]);
        let bits = random.pick(&BITS);
        put(&mut records[0], at, &bits.to_le_bytes());
    }),
    ("cap", |records, random| {
        let caps = [1_u64, 1, 64, 65_535, 65_536, 1 << 32, 1 << 63];
        let cap = random.pick(&caps);
        put(&mut records[0], records::CAP, &cap.to_le_bytes());
    }),
    ("sizes", |records, random| {
        let at = random.pick(&[2, 6]);
        let old = records[1][at];
        let ends = [0, 1, 63, 64, 65, 319, 320, 321, 0x7fff_ffff, u32::MAX];
        let near = u32::from(old).wrapping_add(random.pick(&[1, u32::MAX]));
        let end = random.pick(&ends);
        let size = random.pick(&[near, end]);
        put(&mut records[1], at, &size.to_le_bytes());
    }),
    ("float-bits", |records, random| {
        let place = 1 + random.index(records.len() - 1);
        let own = &mut records[place];
        // Floats end each record but CO.
        let floats = (own.len() / 8).max(1);
        let back = 8 * (1 + random.index(floats));
        if let Some(at) = own.len().checked_sub(back) {
            let bits = random.pick(&BITS);
            put(own, at, &bits.to_le_bytes());
        }
    }),
    ("no-rows", |records, random| {
        let entries = random.pick(&[0, 0, 0, 1]);
        let arrays = Arrays {
            rows: 0,
            offsets: vec![random.pick(&[0, 0, 0, entries as u32])],
            columns: vec![0; entries],
            values: vec![1.0; entries],
        };
        records[1] = records::matrix(&arrays);
        let problem = Problem {
            arrays,
            ..Problem::draw(random).1
        };
        records.truncate(2);
        if random.below(3) == 0 {
            records.push(records::weights(&vec![1.0; entries]));
        }
        for _ in 0..random.below(4) {
            records.push(call(random, &problem));
        }
    }),
    ("noise", |records, random| {
        let count = random.index(300);
        let mut bytes: Vec<u8> = (0..count).map(|_| random.bits() as u8).collect();
        if random.below(2) == 0 && count > 2 {
            let mark = random.pick(&[b"CO", b"MX", b"FW", b"UP", b"SO"]);
            bytes[..2].copy_from_slice(mark);
        }
        *records = vec![bytes];
    }),
];

/// NaNs of either sign, infinities, the ends of the numbers, and zeros.
const BITS: [u64; 9] = [
    0x7ff8_0000_0000_0000,
    0xfff8_0000_0000_0001,
    0x7ff0_0000_0000_0001,
    0x7ff0_0000_0000_0000,
    0xfff0_0000_0000_0000,
    0x7fef_ffff_ffff_ffff,
    0x8000_0000_0000_0000,
    1,
    0,
];

fn put(record: &mut [u8], at: usize, bytes: &[u8]) {
    if let Some(place) = record.get_mut(at..at + bytes.len()) {
        place.copy_from_slice(bytes);
    }
}

/// An end somewhere, or near the last byte.
fn cut(bytes: &mut Vec<u8>, random: &mut Random) {
    let any = random.index(bytes.len() + 1);
    let near = bytes.len().saturating_sub(1 + random.index(9));
    bytes.truncate(random.pick(&[any, near]));
}
