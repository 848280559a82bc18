//! `pairs` of `aggregation`.

use super::{probe_pairs, require_below, require_region};

pub const MOST_ROWS: usize = 65_536;

/// Where a matrix stands in the stores: offsets and columns, above both the map that is written, with as many words
/// behind it for the sizes of the aggregates, and the weights, or, where `absolute` is set, the matrix's values; and the
/// cap on the rows of an aggregate, 0 for none.
pub struct Graph {
    pub rows: usize,
    pub entries: usize,
    pub offsets: usize,
    pub columns: usize,
    pub map: usize,
    pub weights: usize,
    pub absolute: bool,
    pub cap: u64,
}

impl Graph {
    /// Writes the aggregate of each row to the map; the answer is their count.
    pub fn pairs(&self, w: &mut [u32], f: &[f64], forward: bool) -> usize {
        self.require(w, f);
        // SAFETY: it was tested just now.
        unsafe { self.pairs_untested(w, f, forward) }
    }

    /// `GraphOk` of `aggregation`.
    pub fn require(&self, w: &[u32], f: &[f64]) {
        let &Self { rows, entries, .. } = self;
        assert!(rows <= MOST_ROWS, "{rows} rows");
        require_region(self.map, self.offsets, rows + 1);
        require_region(self.map, self.columns, entries);
        require_region(w.len(), self.map, rows + rows);
        require_region(f.len(), self.weights, entries);
        require_below(&w[self.offsets..][..=rows], entries + 1);
        require_below(&w[self.columns..][..entries], rows);
    }

    /// # Safety
    ///
    /// `require` passes.
    pub unsafe fn pairs_untested(&self, w: &mut [u32], f: &[f64], forward: bool) -> usize {
        // SAFETY: the pointers are slices' own, with their lengths, and the caller has the rest.
        unsafe {
            probe_pairs(
                w.as_mut_ptr(),
                w.len(),
                f.as_ptr(),
                f.len(),
                self.rows,
                self.entries,
                self.offsets,
                self.columns,
                self.map,
                self.weights,
                u8::from(self.absolute),
                u8::from(forward),
                self.cap,
            )
        }
    }
}
