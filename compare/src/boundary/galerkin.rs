//! The coarse pattern and the composition of maps of `pattern`, and the coarse values and weights of `galerkin`.

use super::aggregation::MOST_ROWS;
use super::{
    probe_coarse_pattern, probe_compose, probe_restrict_weights, probe_sum_entries,
    probe_sum_given, probe_symmetrize, require_below, require_region,
};

pub const MOST_ENTRIES: usize = 1_048_576;

/// Where a fine pattern, its map and the coarse pattern stand in the words. What is written lies above what is read:
/// positions (`entries` words), coarse offsets (`count + 1`), coarse columns (`entries`) and scratch.
pub struct Coarsening {
    pub rows: usize,
    pub entries: usize,
    pub count: usize,
    pub offsets: usize,
    pub columns: usize,
    pub map: usize,
    pub positions: usize,
    pub coarse_offsets: usize,
    pub coarse_columns: usize,
    pub scratch: usize,
}

impl Coarsening {
    /// How many words of scratch are written.
    pub fn scratch_words(rows: usize, count: usize) -> usize {
        count + rows + count
    }

    /// Writes the coarse pattern, and the position of each fine entry in it; the answer is the number of its entries.
    pub fn coarse_pattern(&self, w: &mut [u32]) -> usize {
        self.require(w);
        // SAFETY: it was tested just now.
        unsafe { self.coarse_pattern_untested(w) }
    }

    /// `PatternOk` of `pattern`; only patterns whose columns rise pass.
    pub fn require(&self, w: &[u32]) {
        let &Self {
            rows,
            entries,
            count,
            ..
        } = self;
        assert!(
            rows <= MOST_ROWS && entries <= MOST_ENTRIES && count <= rows,
            "{rows} rows, {entries} entries, {count} aggregates"
        );
        require_region(self.positions, self.offsets, rows + 1);
        require_region(self.positions, self.columns, entries);
        require_region(self.positions, self.map, rows);
        require_region(self.coarse_offsets, self.positions, entries);
        require_region(self.coarse_columns, self.coarse_offsets, count + 1);
        require_region(self.scratch, self.coarse_columns, entries);
        require_region(w.len(), self.scratch, Self::scratch_words(rows, count));
        let offsets = &w[self.offsets..][..=rows];
        let columns = &w[self.columns..][..entries];
        assert!(
            offsets[0] == 0 && offsets.is_sorted() && offsets[rows] as usize == entries,
            "offsets do not fit the entries"
        );
        require_below(columns, rows);
        require_mirrors(offsets, columns);
        require_below(&w[self.map..][..rows], count);
    }

    /// # Safety
    ///
    /// `require` passes.
    pub unsafe fn coarse_pattern_untested(&self, w: &mut [u32]) -> usize {
        // SAFETY: the pointer is the slice's own, with its length, and the caller has the rest.
        unsafe {
            probe_coarse_pattern(
                w.as_mut_ptr(),
                w.len(),
                self.rows,
                self.entries,
                self.count,
                self.offsets,
                self.columns,
                self.map,
                self.positions,
                self.coarse_offsets,
                self.coarse_columns,
                self.scratch,
            )
        }
    }
}

/// Each entry has its mirror. Rows upward, the mirror of an entry is the next entry of its column's row that has not
/// been one, if the columns of each row rise.
fn require_mirrors(offsets: &[u32], columns: &[u32]) {
    let mut next: Vec<u32> = offsets.to_vec();
    for (row, ends) in offsets.windows(2).enumerate() {
        for &column in &columns[ends[0] as usize..ends[1] as usize] {
            let mirror = next[column as usize];
            assert!(
                mirror < offsets[column as usize + 1] && columns[mirror as usize] as usize == row,
                "entry ({row}, {column}) has no mirror, or columns do not rise"
            );
            next[column as usize] += 1;
        }
    }
}

/// `n` words at `map`, each the index of one of `count` words at `next`.
pub struct Composition {
    pub n: usize,
    pub map: usize,
    pub next: usize,
    pub count: usize,
}

impl Composition {
    /// Each word at `map` becomes the word at `next` that it names.
    pub fn compose(&self, w: &mut [u32]) {
        let &Self {
            n,
            map,
            next,
            count,
        } = self;
        require_region(w.len(), map, n);
        require_region(w.len(), next, count);
        assert!(
            map + n <= next || next + count <= map,
            "the two maps overlap"
        );
        require_below(&w[map..][..n], count);
        // SAFETY: the pointer is the slice's own, with its length, and the rest was tested just now.
        unsafe { probe_compose(w.as_mut_ptr(), w.len(), n, map, next, count) };
    }
}

/// `m` positions, `m` values below where `total` sums are written.
pub struct Sums {
    pub m: usize,
    pub positions: usize,
    pub values: usize,
    pub total: usize,
    pub out: usize,
}

impl Sums {
    /// Adds each value at its position, from plus zero.
    pub fn sum_entries(&self, w: &[u32], f: &mut [f64]) {
        self.require(w, f);
        // SAFETY: it was tested just now.
        unsafe { self.sum_entries_untested(w, f) };
    }

    /// The same, of values that are given in a slice of their own; what is required is `GivenOk` of `galerkin`.
    pub fn sum_given(&self, w: &[u32], given: &[f64], f: &mut [f64]) {
        require_region(w.len(), self.positions, self.m);
        require_region(given.len(), 0, self.m);
        require_region(f.len(), self.out, self.total);
        require_below(&w[self.positions..][..self.m], self.total);
        // SAFETY: the pointers are slices' own, with their lengths, and what is required was tested just now.
        unsafe {
            probe_sum_given(
                w.as_ptr(),
                w.len(),
                given.as_ptr(),
                given.len(),
                f.as_mut_ptr(),
                f.len(),
                self.m,
                self.positions,
                self.total,
                self.out,
            );
        }
    }

    /// `SumsOk` of `galerkin`.
    pub fn require(&self, w: &[u32], f: &[f64]) {
        require_region(w.len(), self.positions, self.m);
        require_region(self.out, self.values, self.m);
        require_region(f.len(), self.out, self.total);
        require_below(&w[self.positions..][..self.m], self.total);
    }

    /// # Safety
    ///
    /// `require` passes.
    pub unsafe fn sum_entries_untested(&self, w: &[u32], f: &mut [f64]) {
        // SAFETY: the pointers are slices' own, with their lengths, and the caller has the rest.
        unsafe {
            probe_sum_entries(
                w.as_ptr(),
                w.len(),
                f.as_mut_ptr(),
                f.len(),
                self.m,
                self.positions,
                self.values,
                self.total,
                self.out,
            );
        }
    }
}

/// For each face its two entries, at `upper` and at `lower`, among `total` values.
pub struct Faces {
    pub faces: usize,
    pub upper: usize,
    pub lower: usize,
    pub total: usize,
    pub values: usize,
}

impl Faces {
    /// Both entries of each face become half of the one plus half of the other.
    pub fn symmetrize(&self, w: &[u32], f: &mut [f64]) {
        self.require(w, f);
        // SAFETY: it was tested just now.
        unsafe { self.symmetrize_untested(w, f) };
    }

    /// `FacesOk` of `galerkin`.
    pub fn require(&self, w: &[u32], f: &[f64]) {
        require_region(f.len(), self.values, self.total);
        for side in [self.upper, self.lower] {
            require_region(w.len(), side, self.faces);
            require_below(&w[side..][..self.faces], self.total);
        }
    }

    /// # Safety
    ///
    /// `require` passes.
    pub unsafe fn symmetrize_untested(&self, w: &[u32], f: &mut [f64]) {
        // SAFETY: the pointers are slices' own, with their lengths, and the caller has the rest.
        unsafe {
            probe_symmetrize(
                w.as_ptr(),
                w.len(),
                f.as_mut_ptr(),
                f.len(),
                self.faces,
                self.upper,
                self.lower,
                self.total,
                self.values,
            );
        }
    }
}

/// Fine weights to be summed, and the `count` rows of the coarse pattern that they go to.
pub struct Weights {
    pub sums: Sums,
    pub count: usize,
    pub offsets: usize,
    pub columns: usize,
}

impl Weights {
    /// Adds each weight at its position, from plus zero; then those of the diagonal become zero.
    pub fn restrict_weights(&self, w: &[u32], f: &mut [f64]) {
        let &Self {
            ref sums,
            count,
            offsets,
            columns,
        } = self;
        sums.require(w, f);
        require_region(w.len(), offsets, count + 1);
        require_region(w.len(), columns, sums.total);
        require_below(&w[offsets..][..=count], sums.total + 1);
        // SAFETY: the pointers are slices' own, with their lengths, and the rest was tested just now.
        unsafe {
            probe_restrict_weights(
                w.as_ptr(),
                w.len(),
                f.as_mut_ptr(),
                f.len(),
                count,
                sums.m,
                sums.positions,
                offsets,
                columns,
                sums.values,
                sums.total,
                sums.out,
            );
        }
    }
}
