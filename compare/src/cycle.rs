//! `cycle` beside the expressions of cycle.rs, which cannot be called alone: they are written here as they stand there.

use crate::Effort;
use crate::boundary::corrections::{self, Correction, Transfer};
use crate::numbers::{self, DRAWS, Draw};
use crate::pattern;
use crate::random::Random;
use crate::report::{Report, same};
use crate::stores::{Layout, narrow, same_floats};

pub fn compare(report: &mut Report, random: &mut Random, effort: Effort) {
    for (name, draw) in DRAWS {
        for _ in 0..effort.times(800, 13_000) {
            let n = numbers::rows(random);
            transfers(report, random, name, draw, n);
            let n = numbers::rows(random);
            corrected(report, random, name, draw, n);
        }
        for _ in 0..effort.times(40, 600) {
            let n = numbers::many_rows(random);
            transfers(report, random, name, draw, n);
            corrected(report, random, name, draw, n);
        }
    }
}

fn transfers(report: &mut Report, random: &mut Random, name: &str, draw: Draw, n: usize) {
    let (map, count) = pattern::random_map(random, n);
    let (residual, coarse) = (
        numbers::vector(random, draw, n),
        numbers::vector(random, draw, count),
    );
    let (mut words, mut floats) = (Layout::default(), Layout::default());
    let at = Transfer {
        n,
        count,
        map: words.place(random, n),
    };
    let [below, above] = [floats.place(random, n), floats.place(random, count)];
    let (mut words, mut floats) = (words.store(random), floats.store(random));
    words.put(at.map, narrow(&map));

    floats.put(below, residual.iter().copied());
    let ((), kept) = floats.call(&[(above, count)], |f| {
        at.restrict(&words.words, f, below, above)
    });
    // cycle.rs:78-81
    let mut due = vec![0.0; count];
    for row in 0..n {
        due[map[row]] += residual[row];
    }
    told(
        report,
        "restrict",
        name,
        floats.at(above, count),
        &due,
        kept,
    );

    floats.put(above, coarse.iter().copied());
    let ((), kept) = floats.call(&[(below, n)], |f| at.prolong(&words.words, f, above, below));
    // cycle.rs:92-94
    let due: Vec<f64> = map.iter().map(|&aggregate| coarse[aggregate]).collect();
    told(report, "prolong", name, floats.at(below, n), &due, kept);

    // The same with no vector between. Signed zeros on both sides show a sum whose operands or whose start are others.
    let mut x = numbers::vector(random, draw, n);
    let mut coarse = coarse;
    for value in x.iter_mut().chain(&mut coarse) {
        if random.below(4) == 0 {
            *value = random.signed(0.0);
        }
    }
    floats.put(below, x.iter().copied());
    floats.put(above, coarse.iter().copied());
    let ((), kept) = floats.call(&[(below, n)], |f| {
        at.add_prolonged(&words.words, f, above, below)
    });
    // cycle.rs:92-94 and 122-124
    for row in 0..n {
        let both = [x[row], coarse[map[row]]].map(|value| value.to_bits() == (-0.0_f64).to_bits());
        if both == [true; 2] {
            report.answer("cycle/add_prolonged/minus-zero-and-minus-zero");
        }
        x[row] += coarse[map[row]];
    }
    told(report, "add_prolonged", name, floats.at(below, n), &x, kept);
}

fn corrected(report: &mut Report, random: &mut Random, name: &str, draw: Draw, n: usize) {
    let [x, correction, residual, mut product, inverse] =
        [(); 5].map(|()| numbers::vector(random, draw, n));
    // A denominator that is so small has a quotient that is not finite.
    if random.below(8) == 0 {
        product = correction.iter().map(|value| value * 1e-315).collect();
    }
    let mut floats = Layout::default();
    // The residual stands on either side of x.
    let side = random.below(2) == 0;
    let mut early = 0;
    if side {
        early = floats.place(random, n);
    }
    let places = [(); 4].map(|()| floats.place(random, n));
    let [own, start, moved, image] = places;
    let late = if side { early } else { floats.place(random, n) };
    let out = floats.place(random, n);
    let at = Correction {
        n,
        correction: moved,
        residual: late,
        product: image,
        inverse: own,
        x: start,
    };
    let mut floats = floats.store(random);
    for (place, vector) in [
        (at.x, &x),
        (at.correction, &correction),
        (at.residual, &residual),
        (at.product, &product),
        (at.inverse, &inverse),
    ] {
        floats.put(place, vector.iter().copied());
    }

    let ((), kept) = floats.call(&[(out, n)], |f| {
        corrections::subtract(f, n, at.residual, at.product, out);
    });
    // cycle.rs:71-74
    let due: Vec<f64> = residual
        .iter()
        .zip(&product)
        .map(|(b, ax)| b - ax)
        .collect();
    told(report, "subtract", name, floats.at(out, n), &due, kept);

    let ours = at.factor(&floats.words);
    let theirs = factor(&correction, &residual, &product);
    let agrees = match (ours, theirs) {
        (Ok(ours), Ok(theirs)) => same(ours, theirs),
        _ => ours == theirs,
    };
    let kind = report.kind(&format!("cycle/correction_factor/{name}"));
    report.case(kind, agrees, || {
        let operands = [&correction, &residual, &product].map(|vector| numbers::shown(vector));
        format!("ours {ours:?} theirs {theirs:?} of {operands:?}")
    });
    report.answer(&match theirs {
        Ok(0.0) => "cycle/correction_factor/zero".to_string(),
        Ok(_) => "cycle/correction_factor/other".to_string(),
        Err(number) => format!("cycle/correction_factor/refused-{number}"),
    });
    let terms = numbers::products(&correction, &residual);
    if theirs.is_ok_and(|factor| factor != 0.0) && numbers::blocks_show(&terms) {
        report.answer("cycle/correction_factor/blocks-would-show");
    }

    let factor = if random.below(2) == 0 {
        draw(random)
    } else {
        theirs.unwrap_or(0.0)
    };
    let ((), kept) = floats.call(&[(at.x, n)], |f| at.add_scaled(f, factor));
    // cycle.rs:117-120
    let mut due = x.clone();
    for row in 0..n {
        due[row] +=
            factor * correction[row] + (residual[row] - factor * product[row]) * inverse[row];
    }
    told(report, "add_scaled", name, floats.at(at.x, n), &due, kept);

    floats.put(at.x, x.iter().copied());
    let ((), kept) = floats.call(&[(at.x, n)], |f| {
        corrections::add_plain(f, n, at.correction, at.x)
    });
    // cycle.rs:122-124
    let due: Vec<f64> = x.iter().zip(&correction).map(|(x, c)| x + c).collect();
    told(report, "add_plain", name, floats.at(at.x, n), &due, kept);
}

/// cycle.rs:97-116: the factor, or the question that refuses it.
fn factor(correction: &[f64], residual: &[f64], product: &[f64]) -> Result<f64, u64> {
    let (mut numerator, mut denominator) = (0.0, 0.0);
    for row in 0..correction.len() {
        numerator += correction[row] * residual[row];
        denominator += correction[row] * product[row];
    }
    if !f64::is_finite(numerator) || !f64::is_finite(denominator) {
        return Err(26);
    }
    let factor: f64 = if denominator > 0.0 {
        numerator / denominator
    } else {
        0.0
    };
    if factor.is_finite() {
        Ok(factor)
    } else {
        Err(27)
    }
}

fn told(report: &mut Report, call: &str, name: &str, ours: &[f64], due: &[f64], kept: bool) {
    let kind = report.kind(&format!("cycle/{call}/{name}"));
    report.case(kind, same_floats(ours, due), || {
        let [ours, due] = [ours, due].map(numbers::shown);
        format!("ours {ours} theirs {due}")
    });
    let kind = report.kind("cycle/outside-unchanged");
    report.case(kind, kept, || call.to_string());
}
