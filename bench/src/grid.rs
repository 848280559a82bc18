//! A load on a box of cells, the level below it, and what lays them into the stores.

use compare::random::Random;
use multigrid::load;
use oracle::{CsrMatrix, MultigridCoarseSolver, MultigridOptions, parts};

pub struct Grid {
    pub matrix: CsrMatrix,
    pub weights: Vec<f64>,
}

impl Grid {
    /// The load of a seed on a rectangle.
    pub fn new(seed: u64, [wide, high]: [usize; 2]) -> Self {
        Self::of_cells(seed, [wide as u64, high as u64, 1])
    }

    /// The load of a seed.
    pub fn of_cells(seed: u64, cells: [u64; 3]) -> Self {
        let load = load(seed, cells).expect("a load");
        let wide = |numbers: Vec<u32>| numbers.into_iter().map(|number| number as usize).collect();
        let (offsets, columns) = (wide(load.row_offsets), wide(load.column_indices));
        let matrix = CsrMatrix::new(load.rows, load.rows, offsets, columns, load.values)
            .expect("a load is a matrix");
        Self::with_conductances(matrix)
    }

    /// The matrix of the level below the finest, as the Rust builds it with face weights: default controls but Cholesky.
    pub fn below(&self) -> Self {
        let options = MultigridOptions {
            coarse_solver: MultigridCoarseSolver::Cholesky,
            ..MultigridOptions::default()
        };
        let built = parts::Hierarchy::build(&self.matrix, options, Some(&self.weights))
            .expect("a grid has a hierarchy");
        let below = built.levels().nth(1).expect("a level below the finest");
        Self::with_conductances(below.matrix.clone())
    }

    /// The weights are the conductances, and on the diagonal zero.
    fn with_conductances(matrix: CsrMatrix) -> Self {
        let weights = matrix.values().iter().map(|&value| f64::max(0.0, -value));
        let weights = weights.collect();
        Self { matrix, weights }
    }
}

/// The words of a store: the container's numbers are wider.
pub fn put(words: &mut [u32], start: usize, numbers: &[usize]) {
    for (word, &number) in words[start..].iter_mut().zip(numbers) {
        *word = number as u32;
    }
}

/// Fills a part of a store with noise.
pub fn noise(words: &mut [u32], random: &mut Random) {
    for word in words {
        *word = random.bits() as u32;
    }
}
