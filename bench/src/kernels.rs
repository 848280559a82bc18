//! `apply` and `residual` of matrix.rs.

use crate::grid::Grid;
use crate::level::Level;
use crate::measure::Kernel;
use std::hint::black_box;

struct Product {
    level: Level,
    fused: bool,
    output: Vec<f64>,
}

pub fn apply(grid: &Grid) -> Box<dyn Kernel> {
    Box::new(Product::new(grid, false, 0))
}

pub fn residual(grid: &Grid) -> Box<dyn Kernel> {
    Box::new(Product::new(grid, true, 0))
}

/// The vectors are not a power of two apart.
pub fn residual_padded(grid: &Grid) -> Box<dyn Kernel> {
    Box::new(Product::new(grid, true, grid.matrix.nrows() / 32 + 8))
}

impl Product {
    fn new(grid: &Grid, fused: bool, pad: usize) -> Self {
        let level = Level::new(grid, pad);
        let output = vec![0.0; level.places.rows];
        let mut product = Self {
            level,
            fused,
            output,
        };
        let Level {
            places,
            at,
            words,
            floats,
            ..
        } = &mut product.level;
        if fused {
            places.residual(words, floats, at.x, at.rhs, at.correction);
        } else {
            places.apply(words, floats, at.x, at.correction);
        }
        product.rust();
        let ours = product.level.vector(product.level.at.correction);
        assert!(ours == product.output, "the answers differ");
        product
    }
}

impl Kernel for Product {
    fn clear(&mut self) {
        let out = self.level.at.correction;
        self.level.vector_mut(out).fill(f64::NAN);
    }

    fn rust(&mut self) {
        let (level, output) = (&self.level, &mut self.output);
        let x = level.vector(level.at.x);
        if self.fused {
            level.kernel.residual(x, level.vector(level.at.rhs), output);
        } else {
            level.kernel.apply(x, output);
        }
        black_box(&self.output);
    }

    fn ours(&mut self) {
        let Level {
            places,
            at,
            words,
            floats,
            ..
        } = &mut self.level;
        // SAFETY: `new` called it with the same words and places, and tested what is required.
        unsafe {
            if self.fused {
                places.residual_untested(words, floats, at.x, at.rhs, at.correction);
            } else {
                places.apply_untested(words, floats, at.x, at.correction);
            }
        }
        black_box(&self.level.floats);
    }
}
