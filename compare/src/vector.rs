//! `dot` and `norm_l2` of `vector` beside those of vector.rs, and its test of finiteness beside the machine's,
//! on regions of a larger store.

use crate::Effort;
use crate::boundary;
use crate::numbers;
use crate::random::Random;
use crate::report::{Report, hex};
use std::hint::black_box;

/// Around the block of 1,024 products, and several blocks with a short one at the end.
const LENGTHS: [usize; 10] = [0, 1, 2, 1023, 1024, 1025, 2047, 2048, 2049, 5000];

/// How many words of a store at most lie beyond the two regions.
const MARGIN: usize = 40;

/// How many numbers of a vector an example shows.
const SHOWN: usize = 16;

type Draw = fn(&mut Random) -> f64;

const DRAWS: [(&str, Draw); 9] = [
    ("ordinary", |random| random.unit()),
    ("whole", |random| {
        let size = random.below(1000) as f64;
        random.signed(size)
    }),
    ("spread", |random| {
        random.unit() * f64::powi(2.0, random.below(200) as i32 - 100)
    }),
    ("signed-zeros", |random| random.signed(0.0)),
    ("subnormals", |random| {
        let size = f64::from_bits(random.bits() >> random.within(12, 63));
        random.signed(size)
    }),
    ("huge", |random| {
        random.unit() * f64::powi(2.0, random.within(500, 512) as i32)
    }),
    ("infinities-and-nans", |random| match random.below(3000) {
        0 => f64::NAN,
        1 => f64::INFINITY,
        2 => f64::NEG_INFINITY,
        _ => random.unit(),
    }),
    ("bits-below-two", |random| {
        f64::from_bits(random.bits() & 0xbfff_ffff_ffff_ffff)
    }),
    ("random-bits", |random| random.pattern()),
];

pub fn compare(report: &mut Report, random: &mut Random, effort: Effort) {
    for (name, draw) in DRAWS {
        for _ in 0..effort.times(100, 4_000) {
            for length in LENGTHS {
                one_store(report, random, name, draw, length);
            }
            for most in [10, 10, 100, 3000, 3000] {
                let length = random.index(most);
                one_store(report, random, name, draw, length);
            }
        }
    }
}

/// A store and the starts of two regions of `n` words in it, which may overlap.
struct Regions {
    store: Vec<f64>,
    a: usize,
    b: usize,
    n: usize,
}

impl Regions {
    /// What lies outside the regions is NaN, so that an answer that reads it is not finite.
    fn new(random: &mut Random, draw: Draw, n: usize) -> Self {
        let mut store = vec![f64::NAN; 2 * n + random.index(MARGIN)];
        let last = store.len() - n;
        let (a, b) = match random.below(4) {
            0 => (0, last),
            1 => (last, random.index(last + 1)),
            _ => (random.index(last + 1), random.index(last + 1)),
        };
        for start in [a, b] {
            for word in &mut store[start..start + n] {
                *word = draw(random);
            }
        }
        Self { store, a, b, n }
    }

    fn at(&self, start: usize) -> &[f64] {
        &self.store[start..start + self.n]
    }

    fn bits(&self) -> Vec<u64> {
        self.store.iter().map(|word| word.to_bits()).collect()
    }
}

fn one_store(report: &mut Report, random: &mut Random, name: &str, draw: Draw, n: usize) {
    let regions = Regions::new(random, draw, n);
    let before = regions.bits();
    products(report, name, &regions);
    finiteness(report, name, &regions);
    // By its type a shared slice stays as it is; `black_box` has its words read again all the same.
    let regions = black_box(regions);
    let kind = report.kind("vector/store-unchanged");
    report.case(kind, regions.bits() == before, || {
        format!("{name}: n {n} a {} b {}", regions.a, regions.b)
    });
}

fn products(report: &mut Report, name: &str, regions: &Regions) {
    let &Regions { ref store, a, b, n } = regions;
    let (left, right) = (regions.at(a), regions.at(b));
    let dot = [boundary::dot(store, a, b, n), oracle::dot(left, right).ok()];
    let norm = [boundary::norm_l2(store, a, n), oracle::norm_l2(left).ok()];
    for (call, answers, operands) in [("dot", dot, [left, right]), ("norm_l2", norm, [left, left])]
    {
        let [ours, theirs] = answers.map(|answer| answer.map_or("not-finite".to_string(), hex));
        let kind = report.kind(&format!("vector/{call}/{name}"));
        report.case(kind, ours == theirs, || {
            let [left, right] = operands.map(shown);
            format!("ours {ours} theirs {theirs} of [{left}] [{right}]")
        });
        tell_finite(report, call, answers[1].is_some());
        let [left, right] = operands;
        if answers[1].is_some() && numbers::blocks_show(&numbers::products(left, right)) {
            report.answer(&format!("vector/{call}/one-sum-would-show"));
        }
    }
}

fn finiteness(report: &mut Report, name: &str, regions: &Regions) {
    let left = regions.at(regions.a);
    let ours = boundary::all_finite(&regions.store, regions.n, regions.a);
    let theirs = left.iter().all(|word| word.is_finite());
    let kind = report.kind(&format!("vector/all_finite/{name}"));
    report.case(kind, ours == theirs, || {
        format!("ours {ours} theirs {theirs} of [{}]", shown(left))
    });
    tell_finite(report, "all_finite", theirs);
}

fn tell_finite(report: &mut Report, call: &str, finite: bool) {
    let answer = if finite { "finite" } else { "not-finite" };
    report.answer(&format!("vector/{call}/{answer}"));
}

/// The whole vector where it is short; else its length, and the seed repeats it.
fn shown(vector: &[f64]) -> String {
    if vector.len() > SHOWN {
        return format!("{} numbers", vector.len());
    }
    let words: Vec<String> = vector.iter().map(|&word| hex(word)).collect();
    words.join(" ")
}
