//! `pairs` of aggregation.rs, with weights.

use crate::grid::{Grid, noise, put};
use crate::measure::Kernel;
use compare::boundary::aggregation::Graph;
use compare::random::Random;
use oracle::{CsrMatrix, parts};
use std::hint::black_box;

struct Pairs {
    matrix: CsrMatrix,
    weights: Vec<f64>,
    forward: bool,
    graph: Graph,
    words: Vec<u32>,
    random: Random,
}

pub fn upward(grid: &Grid) -> Box<dyn Kernel> {
    Box::new(Pairs::new(grid, true))
}

pub fn downward(grid: &Grid) -> Box<dyn Kernel> {
    Box::new(Pairs::new(grid, false))
}

impl Pairs {
    fn new(grid: &Grid, forward: bool) -> Self {
        let (rows, entries) = (grid.matrix.nrows(), grid.matrix.nnz());
        let graph = Graph {
            rows,
            entries,
            offsets: 0,
            columns: rows + 1,
            map: rows + 1 + entries,
            weights: 0,
            absolute: false,
            cap: 0,
        };
        // the sizes of the aggregates stand behind the map
        let mut words = vec![0; graph.map + 2 * rows];
        put(&mut words, graph.offsets, grid.matrix.row_offsets());
        put(&mut words, graph.columns, grid.matrix.column_indices());
        let count = graph.pairs(&mut words, &grid.weights, forward);
        let (map, aggregates) = parts::pairs(&grid.matrix, forward, Some(&grid.weights));
        let ours = words[graph.map..graph.map + rows]
            .iter()
            .map(|&word| word as usize);
        assert!(count == aggregates && ours.eq(map), "the answers differ");
        Self {
            matrix: grid.matrix.clone(),
            weights: grid.weights.clone(),
            forward,
            graph,
            words,
            random: Random::new(1),
        }
    }
}

impl Kernel for Pairs {
    fn clear(&mut self) {
        noise(&mut self.words[self.graph.map..], &mut self.random);
    }

    fn rust(&mut self) {
        black_box(parts::pairs(
            &self.matrix,
            self.forward,
            Some(&self.weights),
        ));
    }

    fn ours(&mut self) {
        // SAFETY: `new` called it with the same pattern, weights and places, and tested what is required.
        let count = unsafe {
            self.graph
                .pairs_untested(&mut self.words, &self.weights, self.forward)
        };
        black_box(count);
    }
}
