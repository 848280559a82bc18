//! `load` beside a model of its own: the Rust has none. The model makes the faces first and the rows from them, so it shares neither the
//! order of work nor a line with the proved code. Every word of the slices is compared, those past the load too.

use crate::Effort;
use crate::random::Random;
use crate::report::Report;
use multigrid::{Refusal, lent};

const MOST_CELLS: u128 = 65_536;
/// What the slices are filled with: no load writes it.
const WORD: u32 = 0xdead_beef;
const FLOAT: u64 = 0x7ff4_5678_9abc_def0;

/// A load: offsets, columns and values.
#[derive(Clone, PartialEq)]
pub struct Model {
    pub offsets: Vec<u32>,
    pub columns: Vec<u32>,
    pub values: Vec<f64>,
}

/// The draws of a seed.
pub struct Draws {
    seed: u64,
    state: u64,
}

impl Draws {
    pub const fn new(seed: u64) -> Self {
        Self { seed, state: seed }
    }

    pub const fn draw(&mut self) -> u64 {
        self.state ^= self.state << 13;
        self.state ^= self.state >> 7;
        self.state ^= self.state << 17;
        self.state.wrapping_add(self.seed)
    }
}

/// The load of a seed on a box of these extents, the first the fastest; none where there is no load.
pub fn model(seed: u64, extents: &[u64]) -> Option<Model> {
    let mut product = 1u128;
    for &extent in extents {
        product = product
            .checked_mul(u128::from(extent))
            .filter(|&cells| cells <= MOST_CELLS)?;
    }
    if seed == 0 || product == 0 {
        return None;
    }
    let cells = product as usize;
    let mut draws = Draws::new(seed);
    let mut rows: Vec<Vec<(u32, u64)>> = vec![Vec::new(); cells];
    for cell in 0..cells {
        let mut stride = 1;
        for &extent in extents {
            let extent = extent as usize;
            if cell / stride % extent + 1 < extent {
                let conductance = 1 + draws.draw() % 1024;
                rows[cell].push(((cell + stride) as u32, conductance));
                rows[cell + stride].push((cell as u32, conductance));
            }
            stride *= extent;
        }
    }
    let mut made = Model {
        offsets: vec![0],
        columns: Vec::new(),
        values: Vec::new(),
    };
    for (cell, mut row) in rows.into_iter().enumerate() {
        let diagonal = 1 + row.iter().map(|face| face.1).sum::<u64>();
        row.sort_unstable();
        let split = row.partition_point(|face| (face.0 as usize) < cell);
        for &(column, conductance) in &row[..split] {
            made.columns.push(column);
            made.values.push(-(conductance as f64));
        }
        made.columns.push(cell as u32);
        made.values.push(diagonal as f64);
        for &(column, conductance) in &row[split..] {
            made.columns.push(column);
            made.values.push(-(conductance as f64));
        }
        made.offsets.push(made.columns.len() as u32);
    }
    Some(made)
}

/// How the slices are lent: with so many words more than the load needs, or fewer.
#[derive(Clone, Copy)]
struct Lent {
    offsets: i64,
    columns: i64,
    values: i64,
}

const EXACT: Lent = Lent {
    offsets: 0,
    columns: 0,
    values: 0,
};

pub fn compare(report: &mut Report, random: &mut Random, effort: Effort) {
    draws(report);
    by_hand(report);
    for _ in 0..effort.times(400, 20_000) {
        let extents = drawn_extents(random);
        let seeds = [random.bits(), 1, u64::MAX, random.below(1000)];
        let seed = random.pick(&seeds);
        let more = Lent {
            offsets: random.below(5) as i64,
            columns: random.below(5) as i64,
            values: random.below(5) as i64,
        };
        let lent = random.pick(&[
            EXACT,
            EXACT,
            more,
            Lent {
                offsets: -1,
                ..EXACT
            },
            Lent {
                columns: -1,
                ..EXACT
            },
            Lent {
                values: -1,
                ..EXACT
            },
        ]);
        case(report, "load/drawn", seed, &extents, lent);
        if let [width, height] = extents[..] {
            case(
                report,
                "load/one-cell-deep",
                seed,
                &[width, height, 1],
                lent,
            );
            let kind = report.kind("load/flat");
            let alike = model(seed, &extents) == model(seed, &[width, height, 1]);
            report.case(kind, alike, || {
                format!("seed {seed:x}, extents {extents:?}")
            });
        }
    }
}

fn draws(report: &mut Report) {
    let kind = report.kind("load/draws-of-seed-1");
    let mut draws = Draws::new(1);
    let found = [draws.draw(), draws.draw(), draws.draw()];
    let due = [0x4082_2042, 0x1000_4106_0c01_1442, 0x9b1e_842f_6e86_262a];
    report.case(kind, found == due, || format!("{found:x?}"));
    let kind = report.kind("load/two-by-two");
    let rows = [
        135.0, -67.0, -67.0, -67.0, 623.0, -555.0, -67.0, 107.0, -39.0, -555.0, -39.0, 595.0,
    ];
    let found = model(1, &[2, 2]).map(|made| made.values);
    report.case(kind, found.as_deref() == Some(&rows), || {
        format!("{found:?}")
    });
}

fn by_hand(report: &mut Report) {
    let boxes: &[&[u64]] = &[
        &[1, 1],
        &[1, 7],
        &[7, 1],
        &[2, 2],
        &[3, 2],
        &[2, 3],
        &[256, 256],
        &[65_536, 1],
        &[1, 65_536],
        &[255, 257],
        &[65_537, 1],
        &[1, 65_537],
        &[257, 256],
        &[0, 5],
        &[5, 0],
        &[0, 0],
        &[1 << 32, 1 << 32],
        &[1 << 63, 2],
        &[u64::MAX, u64::MAX],
        &[u64::MAX, 1],
        &[1, 1, 1],
        &[1, 1, 9],
        &[9, 1, 4],
        &[1, 5, 1],
        &[2, 2, 2],
        &[4, 3, 2],
        &[5, 1, 1],
        &[40, 40, 40],
        &[16, 64, 64],
        &[1, 1, 65_536],
        &[32, 32, 64],
        &[32, 33, 64],
        &[1, 1, 65_537],
        &[3, 0, 2],
        &[2, 3, 0],
        &[1 << 22, 1 << 22, 1 << 22],
        &[1 << 32, 1 << 32, 1],
        &[1 << 63, 2, 1],
        &[65_536, 65_536, 65_536],
        &[u64::MAX, u64::MAX, u64::MAX],
    ];
    for &extents in boxes {
        for seed in [
            0,
            1,
            2,
            0x8000_0000_0000_0000,
            u64::MAX,
            0x0123_4567_89ab_cdef,
        ] {
            case(report, "load/by-hand", seed, extents, EXACT);
        }
        for lent in [
            Lent {
                offsets: -1,
                ..EXACT
            },
            Lent {
                columns: -1,
                ..EXACT
            },
            Lent {
                values: -1,
                ..EXACT
            },
            Lent {
                offsets: 3,
                columns: 2,
                values: 1,
            },
        ] {
            case(report, "load/room", 1, extents, lent);
        }
    }
}

fn drawn_extents(random: &mut Random) -> Vec<u64> {
    let axes = random.within(2, 3);
    let drawn = |_| {
        let extents = [
            1,
            2,
            3,
            1 + random.below(40),
            random.below(300),
            random.bits(),
        ];
        random.pick(&extents)
    };
    (0..axes).map(drawn).collect()
}

fn case(report: &mut Report, kind: &str, seed: u64, extents: &[u64], lent: Lent) {
    let kind = report.kind(kind);
    let due = model(seed, extents);
    let due_sizes = due
        .clone()
        .or_else(|| model(1, &[2, 2]))
        .map_or((0, 0), |made| (made.offsets.len(), made.columns.len()));
    let length = |exact: usize, more: i64| (exact as i64 + more).max(0) as usize;
    let mut offsets = vec![WORD; length(due_sizes.0, lent.offsets)];
    let mut columns = vec![WORD; length(due_sizes.1, lent.columns)];
    let mut values = vec![f64::from_bits(FLOAT); length(due_sizes.1, lent.values)];
    let short = lent.offsets < 0 || lent.columns < 0 || lent.values < 0;
    // A flat box is one cell deep.
    let box_of = [extents[0], extents[1], extents.get(2).copied().unwrap_or(1)];
    let answer = lent::load(seed, box_of, &mut offsets, &mut columns, &mut values);
    let made = due.filter(|_| !short);
    let due_answer = made
        .as_ref()
        .map(|made| (made.offsets.len() - 1, made.columns.len()))
        .ok_or(Refusal::BadLoad);
    report.answer(if made.is_some() {
        "load/made"
    } else {
        "load/refused-35"
    });
    let made = made.unwrap_or(Model {
        offsets: Vec::new(),
        columns: Vec::new(),
        values: Vec::new(),
    });
    let agrees = answer == due_answer
        && over(&offsets, &made.offsets, &WORD)
        && over(&columns, &made.columns, &WORD)
        && over(
            &values
                .iter()
                .map(|value| value.to_bits())
                .collect::<Vec<_>>(),
            &made
                .values
                .iter()
                .map(|value| value.to_bits())
                .collect::<Vec<_>>(),
            &FLOAT,
        );
    report.case(kind, agrees, || {
        format!("seed {seed:x}, extents {extents:?}, answer {answer:?}")
    });
}

/// Whether what is due stands at the start of what is found, and the rest as it was.
fn over<T: PartialEq>(found: &[T], due: &[T], before: &T) -> bool {
    found.len() >= due.len()
        && found[..due.len()] == *due
        && found[due.len()..].iter().all(|word| word == before)
}
