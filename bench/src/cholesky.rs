//! `cholesky` of hierarchy.rs, every row coupled.

use crate::grid::{Grid, put};
use crate::measure::Kernel;
use compare::boundary::terminals::{Terminal, triangle};
use oracle::{CsrMatrix, parts};
use std::hint::black_box;

struct Cholesky {
    matrix: CsrMatrix,
    places: Terminal,
    words: Vec<u32>,
    floats: Vec<f64>,
}

pub fn all_rows(grid: &Grid) -> Box<dyn Kernel> {
    let (rows, entries) = (grid.matrix.nrows(), grid.matrix.nnz());
    let places = Terminal {
        rows,
        entries,
        offsets: 0,
        columns: rows + 1,
        values: 0,
        size: rows,
        coupled: rows + 1 + entries,
        factor: entries,
    };
    let mut words = vec![0; places.coupled + rows];
    put(&mut words, places.offsets, grid.matrix.row_offsets());
    put(&mut words, places.columns, grid.matrix.column_indices());
    put(&mut words, places.coupled, &Vec::from_iter(0..rows));
    let mut floats = grid.matrix.values().to_vec();
    floats.resize(entries + triangle(rows), 0.0);
    let ours = places.cholesky(&words, &mut floats, 0);
    let theirs = parts::cholesky(&grid.matrix).expect("a grid has a factor");
    let packed = (0..rows).flat_map(|row| &theirs[row * rows..][..=row]);
    assert!(
        ours.is_ok() && packed.eq(&floats[entries..]),
        "the answers differ"
    );
    Box::new(Cholesky {
        matrix: grid.matrix.clone(),
        places,
        words,
        floats,
    })
}

impl Kernel for Cholesky {
    fn clear(&mut self) {
        self.floats[self.places.factor..].fill(f64::NAN);
    }

    fn rust(&mut self) {
        let _ = black_box(parts::cholesky(&self.matrix));
    }

    fn ours(&mut self) {
        // SAFETY: `all_rows` called it with the same words and places, and tested what is required.
        let answer = unsafe {
            self.places
                .cholesky_untested(&self.words, &mut self.floats, 0)
        };
        let _ = black_box(answer);
    }
}
