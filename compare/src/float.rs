//! The helpers of `float` beside the machine's own operations.

use crate::Effort;
use crate::boundary;
use crate::random::Random;
use crate::report::{KindId, Report, hex, same};

const EXPONENT_FIELDS: usize = 2048;
const DIGITS: u32 = 52;

pub fn compare(report: &mut Report, random: &mut Random, effort: Effort) {
    let landmarks = landmarks();
    let patterns: Vec<f64> = (0..20_000).map(|_| random.pattern()).collect();
    for (name, values) in [("landmarks", &landmarks), ("random-bits", &patterns)] {
        unary(
            report,
            &format!("float/abs/{name}"),
            values,
            boundary::abs,
            f64::abs,
        );
        let squared = |x: f64| x.powi(2);
        unary(
            report,
            &format!("float/square/{name}"),
            values,
            boundary::square,
            squared,
        );
        is_finite(report, &format!("float/is_finite/{name}"), values);
        bits(report, &format!("float/bits/{name}"), values);
        max_num(report, random, values);
    }
    sqrt(report, random, effort, &landmarks);
    saturating(report, random, effort);
}

/// Zeros, the least and greatest numbers of each exponent, infinities, NaNs quiet and signalling; both signs.
fn landmarks() -> Vec<f64> {
    let fields = (0..EXPONENT_FIELDS as u64).map(|field| field << DIGITS);
    let least = [0, 1, 2, 3];
    let greatest = [1, 2, 1 << (DIGITS - 1)].map(|below| (1_u64 << DIGITS) - below);
    let digits: Vec<u64> = least.into_iter().chain(greatest).collect();
    fields
        .flat_map(|field| digits.iter().map(move |digits| field + digits))
        .flat_map(|bits| [f64::from_bits(bits), -f64::from_bits(bits)])
        .collect()
}

fn unary(
    report: &mut Report,
    kind: &str,
    values: &[f64],
    ours: impl Fn(f64) -> f64,
    theirs: impl Fn(f64) -> f64,
) {
    let kind = report.kind(kind);
    for &x in values {
        one_unary(report, kind, x, ours(x), theirs(x));
    }
}

fn one_unary(report: &mut Report, kind: KindId, x: f64, ours: f64, theirs: f64) {
    report.case(kind, same(ours, theirs), || {
        format!("of {} ours {} theirs {}", hex(x), hex(ours), hex(theirs))
    });
}

fn is_finite(report: &mut Report, kind: &str, values: &[f64]) {
    let kind = report.kind(kind);
    for &x in values {
        let agrees = boundary::is_finite(x) == x.is_finite();
        report.case(kind, agrees, || format!("of {}", hex(x)));
    }
}

/// To bits and from bits; a NaN may come back as any NaN.
fn bits(report: &mut Report, kind: &str, values: &[f64]) {
    let kind = report.kind(kind);
    for &x in values {
        let to = same(f64::from_bits(boundary::to_bits(x)), x);
        let of = same(boundary::of_bits(x.to_bits()), x);
        report.case(kind, to && of, || format!("of {} to {to} of {of}", hex(x)));
    }
}

fn max_num(report: &mut Report, random: &mut Random, values: &[f64]) {
    let special = [0.0, 1.0, f64::INFINITY, f64::NAN]
        .map(|x| [x, -x])
        .concat();
    for &a in &special {
        for &b in &special {
            one_max_num(report, a, b);
        }
    }
    for &a in values {
        for b in [a, random.pick(values), random.pick(&special)] {
            one_max_num(report, a, b);
            one_max_num(report, b, a);
        }
    }
}

/// Of two zeros of unlike sign either is the larger; the solver only compares what it gets.
fn one_max_num(report: &mut Report, a: f64, b: f64) {
    let unlike_zeros = a == 0.0 && b == 0.0 && a.to_bits() != b.to_bits();
    let kind = report.kind(match (a.is_nan(), b.is_nan()) {
        (false, false) if unlike_zeros => "float/max_num/zeros-of-unlike-sign",
        (false, false) => "float/max_num/numbers",
        (true, true) => "float/max_num/two-nans",
        _ => "float/max_num/one-nan",
    });
    let (ours, theirs) = (boundary::max_num(a, b), a.max(b));
    let agrees = same(ours, theirs) || (unlike_zeros && ours == theirs);
    report.case(kind, agrees, || {
        let operands = [hex(a), hex(b)].join(" ");
        format!("of {operands} ours {} theirs {}", hex(ours), hex(theirs))
    });
}

fn sqrt(report: &mut Report, random: &mut Random, effort: Effort, landmarks: &[f64]) {
    let mut met = [false; EXPONENT_FIELDS];
    let random_bits = report.kind("float/sqrt/random-bits");
    for _ in 0..effort.times(200_000, 10_000_000) {
        let x = random.pattern();
        met[(x.abs().to_bits() >> DIGITS) as usize] = true;
        one_unary(report, random_bits, x, boundary::sqrt(x), x.sqrt());
    }
    let kind = report.kind("float/sqrt/exponent-fields-met");
    for (field, met) in met.into_iter().enumerate() {
        report.case(kind, met, || {
            format!("no random pattern has the field {field}")
        });
    }
    let subnormals = report.kind("float/sqrt/subnormals");
    let near_squares = report.kind("float/sqrt/near-squares");
    for _ in 0..effort.times(50_000, 2_000_000) {
        let x = f64::from_bits(random.bits() >> random.within(12, 63));
        one_unary(report, subnormals, x, boundary::sqrt(x), x.sqrt());
        let x = near_square(random);
        one_unary(report, near_squares, x, boundary::sqrt(x), x.sqrt());
    }
    unary(
        report,
        "float/sqrt/landmarks",
        landmarks,
        boundary::sqrt,
        f64::sqrt,
    );
}

/// A rounded square, or a neighbour of one: the root is nearly a number, or nearly half-way between two.
fn near_square(random: &mut Random) -> f64 {
    let root = 1.0 + random.unit().abs();
    let squared = root * root * f64::powi(2.0, random.within(0, 2000) as i32 - 1000);
    f64::from_bits((squared.to_bits() + random.below(5)).saturating_sub(2))
}

fn saturating(report: &mut Report, random: &mut Random, effort: Effort) {
    let edges = [
        0,
        1,
        2,
        3,
        (1 << 32) - 1,
        1 << 32,
        (1 << 32) + 1,
        1 << 63,
        u64::MAX / 3,
    ];
    let edges = edges.iter().flat_map(|&edge| [edge, u64::MAX - edge]);
    let edges: Vec<u64> = edges.collect();
    for &a in &edges {
        for &b in &edges {
            one_saturating(report, "edges", a, b);
        }
    }
    for _ in 0..effort.times(20_000, 1_000_000) {
        one_saturating(report, "random", random.sized(), random.sized());
    }
}

fn one_saturating(report: &mut Report, cases: &str, a: u64, b: u64) {
    let sum = (boundary::saturating_add(a, b), a.saturating_add(b));
    let product = (boundary::saturating_mul(a, b), a.saturating_mul(b));
    for (name, (ours, theirs)) in [("add", sum), ("mul", product)] {
        let kind = report.kind(&format!("float/saturating_{name}/{cases}"));
        report.case(kind, ours == theirs, || {
            format!("of {a} {b} ours {ours} theirs {theirs}")
        });
    }
}
