//! `measure` beside the expressions of `solve` and `measure` of mod.rs, which cannot be called alone: they are written
//! here as they stand there.

use crate::Effort;
use crate::boundary::measures::{self, Vectors};
use crate::numbers::{self, DRAWS, Draw};
use crate::random::Random;
use crate::report::{Report, hex, same};
use crate::stores::Layout;
use oracle::MultigridResidualNorm;

const NORMS: [(&str, MultigridResidualNorm); 2] = [
    ("AbsoluteL2", MultigridResidualNorm::AbsoluteL2),
    ("NormalizedL1", MultigridResidualNorm::NormalizedL1),
];

pub fn compare(report: &mut Report, random: &mut Random, effort: Effort) {
    for (name, draw) in DRAWS {
        for _ in 0..effort.times(1_000, 20_000) {
            let n = random.pick(&[0, 1, 2]) + numbers::rows(random) - 1;
            one_store(report, random, name, draw, n);
            scalars(report, random, name, draw);
        }
        for _ in 0..effort.times(50, 1_000) {
            let n = numbers::many_rows(random);
            one_store(report, random, name, draw, n);
        }
    }
}

/// Four vectors of `n` rows: the norm of one, and the normalization by all.
fn one_store(report: &mut Report, random: &mut Random, name: &str, draw: Draw, n: usize) {
    let [x, rhs, product, rowsums] = [(); 4].map(|()| numbers::vector(random, draw, n));
    let scale = draw(random);
    let mut floats = Layout::default();
    let [one, two, three, four] = floats.place_any_order(random, [n; 4]);
    let at = Vectors {
        x: one,
        rhs: two,
        product: three,
        rowsums: four,
    };
    let mut floats = floats.store(random);
    for (start, vector) in [(one, &x), (two, &rhs), (three, &product), (four, &rowsums)] {
        floats.put(start, vector.iter().copied());
    }
    for (norm, which) in NORMS {
        let (ours, kept) = floats.call(&[], |f| measures::measure(f, n, at.rhs, which, scale));
        let theirs = measure(&rhs, which, scale);
        told(report, "measure", name, ours, theirs, &[&rhs]);
        let answer = if theirs.is_some() {
            "finite"
        } else {
            "refused-23"
        };
        report.answer(&format!("measure/measure/{norm}/{answer}"));
        if theirs.is_some() && blocks_show(&rhs, which) {
            report.answer(&format!("measure/measure/{norm}/blocks-would-show"));
        }
        outside(report, kept);

        let (ours, kept) = floats.call(&[], |f| measures::normalization(f, n, &at, which));
        let theirs = normalization(&x, &rhs, &product, &rowsums, which);
        let operands = [&x[..], &rhs, &product, &rowsums];
        told(
            report,
            "normalization",
            name,
            Some(ours),
            Some(theirs),
            &operands,
        );
        let answer = match theirs {
            _ if norm == "AbsoluteL2" => "one",
            1e-300 => "floor",
            value if value.is_finite() => "finite",
            _ => "refused-22",
        };
        report.answer(&format!("measure/normalization/{answer}"));
        if answer == "finite" && numbers::blocks_show(&x) {
            report.answer("measure/normalization/blocks-would-show");
        }
        outside(report, kept);
    }
}

/// Whether the norm of a residual would be another if its terms were added up in blocks.
fn blocks_show(residual: &[f64], norm: MultigridResidualNorm) -> bool {
    let terms: Vec<f64> = match norm {
        MultigridResidualNorm::AbsoluteL2 => residual.iter().map(|v| v * v).collect(),
        MultigridResidualNorm::NormalizedL1 => residual.iter().map(|v| v.abs()).collect(),
    };
    numbers::blocks_show(&terms)
}

fn scalars(report: &mut Report, random: &mut Random, name: &str, draw: Draw) {
    let [a, b, c] = [(); 3].map(|()| draw(random));
    // mod.rs:172-174; zeros of unlike sign, of which `max` may choose either, count as equal.
    let (ours, theirs) = (measures::threshold(a, b, c), a.max(b * c));
    let kind = report.kind(&format!("measure/threshold/{name}"));
    let zeros = ours == 0.0 && theirs == 0.0;
    report.case(kind, same(ours, theirs) || zeros, || {
        format!("ours {ours:e} theirs {theirs:e} of {a:e} {b:e} {c:e}")
    });
    // mod.rs:180-184
    let theirs = if a > 0.0 { b / a } else { 0.0 };
    told(
        report,
        "relative",
        name,
        Some(measures::relative(a, b)),
        Some(theirs),
        &[&[a, b]],
    );
}

/// mod.rs:233-248
fn measure(residual: &[f64], norm: MultigridResidualNorm, factor: f64) -> Option<f64> {
    let value = match norm {
        MultigridResidualNorm::AbsoluteL2 => residual.iter().map(|v| v * v).sum::<f64>().sqrt(),
        MultigridResidualNorm::NormalizedL1 => {
            residual.iter().map(|v| v.abs()).sum::<f64>() / factor
        }
    };
    value.is_finite().then_some(value)
}

/// mod.rs:151-162
fn normalization(
    x: &[f64],
    rhs: &[f64],
    product: &[f64],
    row_sums: &[f64],
    norm: MultigridResidualNorm,
) -> f64 {
    match norm {
        MultigridResidualNorm::AbsoluteL2 => 1.0,
        MultigridResidualNorm::NormalizedL1 => {
            let mean = x.iter().sum::<f64>() / x.len() as f64;
            rhs.iter()
                .zip(product)
                .zip(row_sums)
                .map(|((&b, &ax), &sum)| (ax - sum * mean).abs() + (b - sum * mean).abs())
                .sum::<f64>()
                .max(1e-300)
        }
    }
}

fn told(
    report: &mut Report,
    call: &str,
    name: &str,
    ours: Option<f64>,
    theirs: Option<f64>,
    operands: &[&[f64]],
) {
    let agrees = match (ours, theirs) {
        (Some(ours), Some(theirs)) => same(ours, theirs),
        (None, None) => true,
        _ => false,
    };
    let kind = report.kind(&format!("measure/{call}/{name}"));
    report.case(kind, agrees, || {
        let [ours, theirs] =
            [ours, theirs].map(|answer| answer.map_or("not-finite".to_string(), hex));
        let operands: Vec<String> = operands
            .iter()
            .map(|vector| numbers::shown(vector))
            .collect();
        format!("ours {ours} theirs {theirs} of {operands:?}")
    });
}

fn outside(report: &mut Report, kept: bool) {
    let kind = report.kind("measure/store-unchanged");
    report.case(kind, kept, String::new);
}
