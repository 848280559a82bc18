//! One sweep of smoother.rs: Gauss-Seidel forward, or DIC.

use crate::grid::Grid;
use crate::level::Level;
use crate::measure::Kernel;
use std::hint::black_box;

/// Sweep after sweep over the same x; it starts anew with each stretch.
struct Sweeps {
    level: Level,
    dic: bool,
    start: Vec<f64>,
    x: Vec<f64>,
    beside: Vec<f64>,
}

pub fn gauss_seidel(grid: &Grid) -> Box<dyn Kernel> {
    Box::new(Sweeps::new(grid, false))
}

pub fn dic(grid: &Grid) -> Box<dyn Kernel> {
    Box::new(Sweeps::new(grid, true))
}

impl Sweeps {
    fn new(grid: &Grid, dic: bool) -> Self {
        let level = Level::new(grid, 0);
        let start = level.vector(level.at.x).to_vec();
        let mut sweeps = Self {
            dic,
            x: start.clone(),
            beside: vec![0.0; start.len()],
            start,
            level,
        };
        sweeps.clear();
        let Level {
            places,
            at,
            words,
            floats,
            ..
        } = &mut sweeps.level;
        if dic {
            places.dic_sweep(words, floats, at);
        } else {
            places.gauss_seidel(words, floats, at, false);
        }
        sweeps.rust();
        let level = &sweeps.level;
        let made = level.vector(if dic {
            level.at.correction
        } else {
            level.at.work
        });
        assert!(
            level.vector(level.at.x) == sweeps.x && made == sweeps.beside,
            "the answers differ"
        );
        sweeps
    }
}

impl Kernel for Sweeps {
    fn clear(&mut self) {
        self.x.copy_from_slice(&self.start);
        let level = &mut self.level;
        level.vector_mut(level.at.x).copy_from_slice(&self.start);
        level.vector_mut(level.at.work).fill(f64::NAN);
        level.vector_mut(level.at.correction).fill(f64::NAN);
    }

    fn rust(&mut self) {
        let (level, x, beside) = (&self.level, &mut self.x, &mut self.beside);
        let rhs = level.vector(level.at.rhs);
        if self.dic {
            level.kernel.dic_sweep(&level.dic, rhs, x, beside);
        } else {
            level.kernel.gauss_seidel(rhs, x, beside, false);
        }
        black_box(&self.x);
    }

    fn ours(&mut self) {
        let Level {
            places,
            at,
            words,
            floats,
            ..
        } = &mut self.level;
        // SAFETY: `new` called it with the same words and places, and tested what is required.
        unsafe {
            if self.dic {
                places.dic_sweep_untested(words, floats, at);
            } else {
                places.gauss_seidel_untested(words, floats, at, false);
            }
        }
        black_box(&self.level.floats);
    }
}
