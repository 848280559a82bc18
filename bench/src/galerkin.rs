//! `galerkin` of aggregation.rs, over the aggregates of `pairs`: ours is the coarse pattern with the positions, the
//! sums, and half plus half over the faces.
//!
//! The faces, each entry above the diagonal with its mirror, are needed by the kernel of the coarse level too, whose
//! pattern pass finds them; so the search is not in the first form. The second has a search in it, not proved.

use crate::grid::{Grid, noise, put};
use crate::measure::Kernel;
use compare::boundary::galerkin::{Coarsening, Faces, Sums};
use compare::pattern::mirrors;
use compare::random::Random;
use oracle::{CsrMatrix, parts};
use std::hint::black_box;

struct Galerkin {
    matrix: CsrMatrix,
    map: Vec<usize>,
    count: usize,
    places: Coarsening,
    sums: Sums,
    faces: Faces,
    words: Vec<u32>,
    floats: Vec<f64>,
    search: bool,
    random: Random,
}

pub fn proved(grid: &Grid) -> Box<dyn Kernel> {
    Box::new(Galerkin::new(grid, false))
}

pub fn with_mirrors(grid: &Grid) -> Box<dyn Kernel> {
    Box::new(Galerkin::new(grid, true))
}

impl Galerkin {
    fn new(grid: &Grid, search: bool) -> Self {
        let matrix = grid.matrix.clone();
        let (map, count) = parts::pairs(&matrix, true, Some(&grid.weights));
        let (coarse, _) =
            parts::galerkin(&matrix, &map, count).expect("a grid has a coarse matrix");
        let found = mirrors(coarse.row_offsets(), coarse.column_indices());
        let places = places(matrix.nrows(), matrix.nnz(), count);
        let upper = places.scratch + Coarsening::scratch_words(places.rows, count);
        let (total, faces) = (coarse.nnz(), found.len());
        let mut words = vec![0; upper + 2 * faces];
        put(&mut words, places.offsets, matrix.row_offsets());
        put(&mut words, places.columns, matrix.column_indices());
        put(&mut words, places.map, &map);
        let (above, below): (Vec<usize>, Vec<usize>) = found.into_iter().unzip();
        put(&mut words, upper, &above);
        put(&mut words, upper + faces, &below);
        let out = matrix.nnz();
        let mut floats = matrix.values().to_vec();
        floats.resize(out + total, 0.0);
        let mut kernel = Self {
            sums: Sums {
                m: places.entries,
                positions: places.positions,
                values: 0,
                total,
                out,
            },
            faces: Faces {
                faces,
                upper,
                lower: upper + faces,
                total,
                values: out,
            },
            matrix,
            map,
            count,
            places,
            words,
            floats,
            search,
            random: Random::new(1),
        };
        kernel.test(coarse.values());
        kernel
    }

    /// What is required holds, and the values are the Rust's.
    fn test(&mut self, values: &[f64]) {
        self.clear();
        self.places.coarse_pattern(&mut self.words);
        self.sums.sum_entries(&self.words, &mut self.floats);
        if self.search {
            self.search_mirrors();
        }
        self.faces.symmetrize(&self.words, &mut self.floats);
        assert!(
            self.floats[self.sums.out..] == *values,
            "the answers differ"
        );
    }

    /// Rows upward, the mirror of an entry above the diagonal is the next entry of its column's row.
    fn search_mirrors(&mut self) {
        let Coarsening {
            count,
            coarse_offsets,
            coarse_columns,
            scratch,
            ..
        } = self.places;
        let w = self.words.as_mut_slice();
        w.copy_within(coarse_offsets..coarse_offsets + count, scratch);
        let mut face = 0;
        for row in 0..count {
            for entry in w[coarse_offsets + row] as usize..w[coarse_offsets + row + 1] as usize {
                let column = w[coarse_columns + entry] as usize;
                if column > row {
                    w[self.faces.upper + face] = entry as u32;
                    w[self.faces.lower + face] = w[scratch + column];
                    w[scratch + column] += 1;
                    face += 1;
                }
            }
        }
    }
}

fn places(rows: usize, entries: usize, count: usize) -> Coarsening {
    let map = rows + 1 + entries;
    let positions = map + rows;
    let coarse_offsets = positions + entries;
    let coarse_columns = coarse_offsets + count + 1;
    Coarsening {
        rows,
        entries,
        count,
        offsets: 0,
        columns: rows + 1,
        map,
        positions,
        coarse_offsets,
        coarse_columns,
        scratch: coarse_columns + entries,
    }
}

impl Kernel for Galerkin {
    fn clear(&mut self) {
        let end = if self.search {
            self.words.len()
        } else {
            self.faces.upper
        };
        noise(
            &mut self.words[self.places.positions..end],
            &mut self.random,
        );
        self.floats[self.sums.out..].fill_with(|| self.random.unit());
    }

    fn rust(&mut self) {
        black_box(parts::galerkin(&self.matrix, &self.map, self.count).is_ok());
    }

    fn ours(&mut self) {
        // SAFETY: `test` made the same calls on the same pattern, map and places, and tested what is required.
        unsafe {
            black_box(self.places.coarse_pattern_untested(&mut self.words));
            self.sums
                .sum_entries_untested(&self.words, &mut self.floats);
            if self.search {
                self.search_mirrors();
            }
            self.faces
                .symmetrize_untested(&self.words, &mut self.floats);
        }
    }
}
