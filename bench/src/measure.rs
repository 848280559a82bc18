//! Rounds of both sides in turn, and their medians.

use crate::clock::microseconds;

/// A stretch that is timed lasts about this many microseconds, so that reading the clock does not count.
const STRETCH: f64 = 2000.0;

/// The same work by the Rust and by us. Repeated, each gives the same answer again.
pub trait Kernel {
    /// Fills what ours writes with noise. It is called before each stretch and not timed.
    fn clear(&mut self);
    fn rust(&mut self);
    fn ours(&mut self);
}

/// Microseconds for one call.
pub struct Medians {
    pub rust: f64,
    pub ours: f64,
}

impl Medians {
    pub fn ratio(&self) -> f64 {
        self.ours / self.rust
    }
}

#[derive(Clone, Copy)]
enum Side {
    Rust,
    Ours,
}

/// Each round times both sides, and every other round ours first.
pub fn measure(kernel: &mut dyn Kernel, rounds: usize) -> Medians {
    let (rust_calls, our_calls) = (calls(kernel, Side::Rust), calls(kernel, Side::Ours));
    let (mut rust, mut ours) = (Vec::new(), Vec::new());
    for round in 0..rounds {
        if round % 2 == 0 {
            rust.push(stretch(kernel, Side::Rust, rust_calls));
        }
        ours.push(stretch(kernel, Side::Ours, our_calls));
        if round % 2 == 1 {
            rust.push(stretch(kernel, Side::Rust, rust_calls));
        }
    }
    Medians {
        rust: median(rust),
        ours: median(ours),
    }
}

/// How many calls a stretch has.
fn calls(kernel: &mut dyn Kernel, side: Side) -> u32 {
    let mut calls = 1;
    while stretch(kernel, side, calls) * f64::from(calls) < STRETCH {
        calls *= 2;
    }
    calls
}

/// Microseconds for one call of this many.
fn stretch(kernel: &mut dyn Kernel, side: Side, calls: u32) -> f64 {
    kernel.clear();
    let start = microseconds();
    for _ in 0..calls {
        match side {
            Side::Rust => kernel.rust(),
            Side::Ours => kernel.ours(),
        }
    }
    (microseconds() - start) / f64::from(calls)
}

fn median(mut times: Vec<f64>) -> f64 {
    times.sort_by(f64::total_cmp);
    times[times.len() / 2]
}
