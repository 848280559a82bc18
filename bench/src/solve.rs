//! `solve` and `update_values` of mod.rs on a hierarchy that is built once, and `statistics`, which asks the index check
//! alone: default controls but Cholesky, and three other choices of them.

use crate::grid::Grid;
use crate::measure::Kernel;
use compare::library;
use compare::random::Random;
use multigrid::lent::{self, Handle};
use multigrid::{LinearSolverOptions, Stores};
use oracle::{AlgebraicMultigrid, CsrMatrix, MultigridCoarseSolver, MultigridSmoother};
use std::hint::black_box;

/// Both hierarchies, and a right-hand side.
struct Built {
    matrix: CsrMatrix,
    offsets: Vec<u32>,
    columns: Vec<u32>,
    theirs: AlgebraicMultigrid,
    handle: Handle,
    stores: Stores,
    rhs: Vec<f64>,
    x: Vec<f64>,
}

fn cholesky() -> oracle::MultigridOptions {
    oracle::MultigridOptions {
        coarse_solver: MultigridCoarseSolver::Cholesky,
        ..oracle::MultigridOptions::default()
    }
}

impl Built {
    fn new(grid: &Grid, options: oracle::MultigridOptions) -> Self {
        let words = |numbers: &[usize]| -> Vec<u32> { numbers.iter().map(|&n| n as u32).collect() };
        let matrix = grid.matrix.clone();
        let (offsets, columns) = (words(matrix.row_offsets()), words(matrix.column_indices()));
        let lent = lent::CsrMatrix {
            rows: matrix.nrows(),
            row_offsets: &offsets,
            column_indices: &columns,
            values: matrix.values(),
        };
        let controls = library::options(&options);
        // A level has at most about half the rows of the one before, so three times the finest is enough.
        let charge = lent::Charge::most(&lent, &controls, 3);
        let mut stores = Stores::new(charge).expect("there is memory");
        let handle = lent::build(lent, Some(&grid.weights), &controls, &mut stores);
        let theirs = AlgebraicMultigrid::new_with_face_weights(&matrix, &grid.weights, options);
        let mut random = Random::new(1);
        Self {
            rhs: (0..matrix.nrows()).map(|_| random.unit()).collect(),
            x: vec![0.0; matrix.nrows()],
            theirs: theirs.expect("a grid has a hierarchy"),
            handle: handle.expect("a grid has a hierarchy"),
            stores,
            matrix,
            offsets,
            columns,
        }
    }
}

impl Built {
    fn refresh_theirs(&mut self) {
        let Built { matrix, theirs, .. } = self;
        theirs
            .update_values(matrix)
            .expect("a grid has a hierarchy");
    }

    fn refresh_own(&mut self) {
        let Built {
            matrix,
            offsets,
            columns,
            handle,
            stores,
            ..
        } = self;
        lent::update_values(handle, offsets, columns, matrix.values(), stores)
            .expect("a grid has a hierarchy");
    }
}

/// Down to 1e-8 of the first residual.
const ASKED: LinearSolverOptions = LinearSolverOptions {
    absolute_tolerance: 0.0,
    relative_tolerance: 1e-8,
    max_iterations: 200,
};

struct Solve(Built);

pub fn by_default(grid: &Grid) -> Box<dyn Kernel> {
    Solve::boxed(grid, cholesky())
}

pub fn with_plain_cycles(grid: &Grid) -> Box<dyn Kernel> {
    let options = oracle::MultigridOptions {
        krylov_dimension: 0,
        ..cholesky()
    };
    Solve::boxed(grid, options)
}

pub fn with_gauss_seidel(grid: &Grid) -> Box<dyn Kernel> {
    let options = oracle::MultigridOptions {
        smoother: MultigridSmoother::GaussSeidel,
        ..cholesky()
    };
    Solve::boxed(grid, options)
}

pub fn with_scaling_off(grid: &Grid) -> Box<dyn Kernel> {
    let options = oracle::MultigridOptions {
        scale_correction: false,
        ..cholesky()
    };
    Solve::boxed(grid, options)
}

impl Solve {
    /// As many iterations to the same solution; compare/ has the rest, bit for bit.
    fn boxed(grid: &Grid, options: oracle::MultigridOptions) -> Box<dyn Kernel> {
        let mut solve = Self(Built::new(grid, options));
        let theirs = solve.theirs();
        let x = std::mem::take(&mut solve.0.x);
        solve.0.x = vec![0.0; x.len()];
        let ours = solve.own();
        assert_eq!(ours, theirs, "the iterations differ");
        assert!(
            x.iter()
                .zip(&solve.0.x)
                .all(|(a, b)| a.to_bits() == b.to_bits()),
            "the solutions differ"
        );
        Box::new(solve)
    }

    fn theirs(&mut self) -> u64 {
        let Built { theirs, rhs, x, .. } = &mut self.0;
        x.fill(0.0);
        let asked = oracle::LinearSolverOptions {
            absolute_tolerance: ASKED.absolute_tolerance,
            relative_tolerance: ASKED.relative_tolerance,
            max_iterations: ASKED.max_iterations as usize,
        };
        let report = theirs.solve(rhs, x, asked).expect("a grid has a solution");
        report.iterations as u64
    }

    fn own(&mut self) -> u64 {
        let Built {
            handle,
            stores,
            rhs,
            x,
            ..
        } = &mut self.0;
        x.fill(0.0);
        let report = lent::solve(handle, stores, rhs, x, ASKED).expect("a grid has a solution");
        report.iterations
    }
}

impl Kernel for Solve {
    fn clear(&mut self) {}

    fn rust(&mut self) {
        black_box(self.theirs());
    }

    fn ours(&mut self) {
        black_box(self.own());
    }
}

/// How many iterations a solve makes, on either side.
pub fn iterations(grid: &Grid) -> u64 {
    Solve(Built::new(grid, cholesky())).own()
}

/// The index check beside a whole solve of the Rust: the share that it takes.
struct Check(Solve);

pub fn index_check(grid: &Grid) -> Box<dyn Kernel> {
    Box::new(Check(Solve(Built::new(grid, cholesky()))))
}

impl Kernel for Check {
    fn clear(&mut self) {}

    fn rust(&mut self) {
        self.0.rust();
    }

    fn ours(&mut self) {
        let Built { handle, stores, .. } = &self.0.0;
        black_box(lent::statistics(handle, stores).is_ok());
    }
}

struct Update(Built);

pub fn update(grid: &Grid) -> Box<dyn Kernel> {
    Box::new(Update(Built::new(grid, cholesky())))
}

impl Kernel for Update {
    fn clear(&mut self) {}

    fn rust(&mut self) {
        self.0.refresh_theirs();
    }

    fn ours(&mut self) {
        self.0.refresh_own();
    }
}

/// An update, and then a solve: what a step of a simulation costs whose pattern stays.
struct Step(Solve);

pub fn refresh_and_solve(grid: &Grid) -> Box<dyn Kernel> {
    Box::new(Step(Solve(Built::new(grid, cholesky()))))
}

impl Kernel for Step {
    fn clear(&mut self) {}

    fn rust(&mut self) {
        self.0.0.refresh_theirs();
        self.0.rust();
    }

    fn ours(&mut self) {
        self.0.0.refresh_own();
        self.0.ours();
    }
}
