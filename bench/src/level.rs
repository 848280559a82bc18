//! A grid's kernel in the stores, with the vectors of a sweep one after the other.

use crate::grid::{Grid, put};
use compare::boundary::kernels::SymmetricMatrix;
use compare::boundary::smoothing::Sweep;
use compare::random::Random;
use oracle::parts;

pub struct Level {
    pub kernel: parts::Kernel,
    pub dic: Vec<f64>,
    pub places: SymmetricMatrix,
    pub at: Sweep,
    pub words: Vec<u32>,
    pub floats: Vec<f64>,
}

impl Level {
    /// So many words lie between two vectors.
    pub fn new(grid: &Grid, pad: usize) -> Self {
        let kernel = parts::Kernel::new(&grid.matrix).expect("a grid has a kernel");
        let (rows, faces) = (grid.matrix.nrows(), kernel.neighbors().len());
        let mut dic = vec![0.0; rows];
        kernel
            .update_dic_diagonal(&mut dic)
            .expect("a grid has a DIC diagonal");
        let mut words = vec![0; rows + 1];
        put(&mut words, 0, kernel.offsets());
        words.extend(kernel.neighbors());

        let mut random = Random::new(2);
        let mut floats = kernel.coefficients().to_vec();
        let mut next = |vector: Option<&[f64]>| {
            floats.resize(floats.len() + pad, 0.0);
            let start = floats.len();
            match vector {
                Some(vector) => floats.extend(vector),
                None => floats.extend((0..rows).map(|_| random.unit())),
            }
            start
        };
        let places = SymmetricMatrix {
            rows,
            diagonal: next(Some(kernel.diagonal())),
            inverse: next(Some(kernel.inverse())),
            offsets: 0,
            neighbors: rows + 1,
            coefficients: 0,
        };
        let at = Sweep {
            dic: next(Some(&dic)),
            rhs: next(None),
            x: next(None),
            work: next(None),
            correction: next(None),
        };
        assert!(faces == places.diagonal - pad, "the faces come first");
        Self {
            kernel,
            dic,
            places,
            at,
            words,
            floats,
        }
    }

    /// The vector at `start`.
    pub fn vector(&self, start: usize) -> &[f64] {
        &self.floats[start..][..self.places.rows]
    }

    pub fn vector_mut(&mut self, start: usize) -> &mut [f64] {
        &mut self.floats[start..][..self.places.rows]
    }
}
