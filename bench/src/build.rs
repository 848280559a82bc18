//! `new` and `new_with_face_weights` of mod.rs: default controls but Cholesky, so two pairings to a level. With a cap on
//! aggregates ours stands beside ours without one, since the Rust has none.

use crate::grid::{Grid, noise};
use crate::measure::Kernel;
use compare::library;
use compare::random::Random;
use multigrid::{MultigridLevelStatistics, MultigridOptions, Stores, lent};
use oracle::{AlgebraicMultigrid, CsrMatrix, LinearAlgebraError, MultigridCoarseSolver};
use std::hint::black_box;

struct Build {
    matrix: CsrMatrix,
    weights: Option<Vec<f64>>,
    rust_options: oracle::MultigridOptions,
    options: MultigridOptions,
    offsets: Vec<u32>,
    columns: Vec<u32>,
    stores: Stores,
    random: Random,
}

pub fn by_values(grid: &Grid) -> Box<dyn Kernel> {
    Box::new(Build::new(grid, None))
}

pub fn by_weights(grid: &Grid) -> Box<dyn Kernel> {
    Box::new(Build::new(grid, Some(grid.weights.clone())))
}

/// Two builds of ours: without a cap, in the place of the Rust's, and with a cap of 8.
struct Capped {
    none: Build,
    eight: Build,
}

pub fn capped(grid: &Grid) -> Box<dyn Kernel> {
    let none = Build::new(grid, None);
    let mut eight = Build::new(grid, None);
    eight.options.max_aggregate_cells = 8;
    assert!(eight.build(), "the stores hold it with a cap too");
    Box::new(Capped { none, eight })
}

impl Kernel for Capped {
    fn clear(&mut self) {
        self.none.clear();
        self.eight.clear();
    }

    fn rust(&mut self) {
        self.none.ours();
    }

    fn ours(&mut self) {
        self.eight.ours();
    }
}

impl Build {
    fn new(grid: &Grid, weights: Option<Vec<f64>>) -> Self {
        let words = |numbers: &[usize]| numbers.iter().map(|&number| number as u32).collect();
        let rust_options = oracle::MultigridOptions {
            coarse_solver: MultigridCoarseSolver::Cholesky,
            ..oracle::MultigridOptions::default()
        };
        let mut build = Self {
            matrix: grid.matrix.clone(),
            weights,
            rust_options,
            options: library::options(&rust_options),
            offsets: words(grid.matrix.row_offsets()),
            columns: words(grid.matrix.column_indices()),
            stores: Stores::default(),
            random: Random::new(1),
        };
        // A level has at most about half the rows of the one before, so three times the finest is enough.
        let charge = lent::Charge::most(&build.lent(), &build.options, 3);
        build.stores = Stores::new(charge).expect("there is memory");
        build.test();
        build
    }

    fn lent(&self) -> lent::CsrMatrix<'_> {
        lent::CsrMatrix {
            rows: self.matrix.nrows(),
            row_offsets: &self.offsets,
            column_indices: &self.columns,
            values: self.matrix.values(),
        }
    }

    fn rust_build(&self) -> Result<AlgebraicMultigrid, LinearAlgebraError> {
        match &self.weights {
            Some(weights) => {
                AlgebraicMultigrid::new_with_face_weights(&self.matrix, weights, self.rust_options)
            }
            None => AlgebraicMultigrid::new(&self.matrix, self.rust_options),
        }
    }

    /// Whether ours is accepted.
    fn build(&mut self) -> bool {
        let mut stores = std::mem::take(&mut self.stores);
        let weights = self.weights.as_deref();
        let answer = lent::build(self.lent(), weights, &self.options, &mut stores);
        self.stores = stores;
        answer.is_ok()
    }

    /// As many levels of as many rows; compare/ has the rest of them, bit for bit.
    fn test(&mut self) {
        self.clear();
        self.ours();
        let theirs = self.rust_build().expect("a grid has a hierarchy");
        let cells = theirs.statistics().iter().map(|level| level.cells as u64);
        let records = self.stores.statistics.iter();
        let ours = records
            .map(|record| record.cells)
            .take_while(|&rows| rows > 0);
        assert!(ours.eq(cells), "the answers differ");
    }
}

impl Kernel for Build {
    fn clear(&mut self) {
        noise(&mut self.stores.words, &mut self.random);
        self.stores.floats.fill_with(|| self.random.unit());
        let random = &mut self.random;
        let record = || MultigridLevelStatistics {
            cells: random.bits(),
            visits: random.bits(),
            pre_sweeps: random.bits(),
            post_sweeps: random.bits(),
            coarse_iterations: random.bits(),
        };
        self.stores.statistics.fill_with(record);
    }

    fn rust(&mut self) {
        black_box(self.rust_build().is_ok());
    }

    fn ours(&mut self) {
        black_box(self.build());
    }
}
