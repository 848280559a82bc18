//! `dot` of vector.rs.

use crate::grid::Grid;
use crate::level::Level;
use crate::measure::Kernel;
use compare::boundary;
use std::hint::black_box;

struct Dot(Level);

pub fn two_vectors(grid: &Grid) -> Box<dyn Kernel> {
    let dot = Dot(Level::new(grid, 0));
    let (ours, theirs) = (dot.product(), dot.theirs());
    assert!(ours.is_some() && ours == theirs, "the answers differ");
    Box::new(dot)
}

impl Dot {
    /// What is required takes no time to test.
    fn product(&self) -> Option<f64> {
        let Level {
            places, at, floats, ..
        } = &self.0;
        boundary::dot(floats, at.rhs, at.x, places.rows)
    }

    fn theirs(&self) -> Option<f64> {
        let level = &self.0;
        oracle::dot(level.vector(level.at.rhs), level.vector(level.at.x)).ok()
    }
}

impl Kernel for Dot {
    fn clear(&mut self) {}

    fn rust(&mut self) {
        black_box(self.theirs());
    }

    fn ours(&mut self) {
        black_box(self.product());
    }
}
