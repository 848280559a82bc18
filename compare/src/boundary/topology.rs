//! The faces of a pattern, of `faces`.

use super::aggregation::MOST_ROWS;
use super::galerkin::MOST_ENTRIES;
use super::kernels::{Refused, verdict};
use super::{
    probe_coupled_count, probe_coupled_rows, probe_diagonals, probe_face_offsets, probe_fill_faces,
    probe_mirrors, require_below, require_region, yes,
};

/// Where a pattern and its faces stand in the words. What is written lies above the pattern, from `starts` on: face
/// offsets (`rows + 1` words) there, diagonal entries (`rows`), and `faces` words each of columns, entries and mirrors.
pub struct Topology {
    pub rows: usize,
    pub entries: usize,
    pub faces: usize,
    pub offsets: usize,
    pub columns: usize,
    pub starts: usize,
    pub diagonals: usize,
    pub neighbors: usize,
    pub uppers: usize,
    pub lowers: usize,
}

/// Calls an export with a pointer, its length, the places and what follows them.
macro_rules! call {
    ($export:ident, $pointer:expr, $length:expr, $at:expr $(, $more:expr)*) => {
        $export(
            $pointer,
            $length,
            $at.rows,
            $at.entries,
            $at.faces,
            $at.offsets,
            $at.columns,
            $at.starts,
            $at.diagonals,
            $at.neighbors,
            $at.uppers,
            $at.lowers
            $(, $more)*
        )
    };
}

impl Topology {
    /// Writes the offsets of the faces; the answer is their number.
    pub fn face_offsets(&self, w: &mut [u32]) -> usize {
        self.require_standing(w);
        require_region(w.len(), self.starts, self.rows + 1);
        // SAFETY: the pointer is the slice's own, with its length, and the rest was tested just now.
        unsafe { call!(probe_face_offsets, w.as_mut_ptr(), w.len(), self) }
    }

    /// Writes the column and the entry of each face.
    pub fn fill_faces(&self, w: &mut [u32]) {
        self.require_standing(w);
        self.require_count(w);
        require_region(self.neighbors, self.starts, 0);
        require_region(self.uppers, self.neighbors, self.faces);
        require_region(w.len(), self.uppers, self.faces);
        // SAFETY: the pointer is the slice's own, with its length, and the rest was tested just now.
        unsafe { call!(probe_fill_faces, w.as_mut_ptr(), w.len(), self) }
    }

    /// Writes the mirror of each face; whether each entry has its mirror.
    pub fn mirrors(&self, w: &mut [u32]) -> bool {
        self.require_ordered(w);
        self.require_count(w);
        require_region(self.lowers, self.starts, 0);
        require_region(w.len(), self.lowers, self.faces);
        // SAFETY: the pointer is the slice's own, with its length, and the rest was tested just now.
        yes(unsafe { call!(probe_mirrors, w.as_mut_ptr(), w.len(), self) })
    }

    /// Writes the diagonal entry of each row, or refuses the first row that has none.
    pub fn diagonals(&self, w: &mut [u32], level: u64) -> Result<(), Refused> {
        self.require_ordered(w);
        require_region(self.diagonals, self.starts, 0);
        require_region(w.len(), self.diagonals, self.rows);
        let mut place = [0; 2];
        let (told, length) = (place.as_mut_ptr(), place.len());
        // SAFETY: the pointers are slices' own, with their lengths, and the rest was tested just now.
        let answer = unsafe {
            call!(
                probe_diagonals,
                w.as_mut_ptr(),
                w.len(),
                self,
                level,
                told,
                length
            )
        };
        verdict(answer, place)
    }

    /// How many rows have an entry off the diagonal.
    pub fn coupled_count(&self, w: &[u32]) -> usize {
        self.require_diagonal(w);
        // SAFETY: the pointer is the slice's own, with its length, and the rest was tested just now.
        unsafe { call!(probe_coupled_count, w.as_ptr(), w.len(), self) }
    }

    /// Writes these rows.
    pub fn coupled_rows(&self, w: &mut [u32], to: usize) {
        self.require_diagonal(w);
        require_region(to, self.starts, 0);
        let coupled = self.each_row(w).filter(|(_, columns)| columns.len() > 1);
        require_region(w.len(), to, coupled.count());
        // SAFETY: the pointer is the slice's own, with its length, and the rest was tested just now.
        unsafe { call!(probe_coupled_rows, w.as_mut_ptr(), w.len(), self, to) }
    }

    /// `Standing` of `faces`.
    fn require_standing(&self, w: &[u32]) {
        let &Self { rows, entries, .. } = self;
        assert!(
            rows <= MOST_ROWS && entries <= MOST_ENTRIES,
            "{rows} rows, {entries} entries"
        );
        require_region(self.starts, self.offsets, rows + 1);
        require_region(self.starts, self.columns, entries);
        require_region(w.len(), self.starts, 0);
        let offsets = &w[self.offsets..][..=rows];
        assert!(
            offsets[0] == 0 && offsets.is_sorted() && offsets[rows] as usize == entries,
            "offsets do not fit the entries"
        );
        require_below(&w[self.columns..][..entries], rows);
    }

    /// `Ordered` of `faces`.
    fn require_ordered(&self, w: &[u32]) {
        self.require_standing(w);
        for (row, columns) in self.each_row(w) {
            assert!(
                columns.is_sorted_by(|one, next| one < next),
                "the columns of row {row} do not rise"
            );
        }
    }

    /// `CoupledOk` of `faces`.
    fn require_diagonal(&self, w: &[u32]) {
        self.require_ordered(w);
        for (row, columns) in self.each_row(w) {
            assert!(columns.contains(&row), "row {row} has no diagonal entry");
        }
    }

    /// As many entries above the diagonal as `faces` says.
    fn require_count(&self, w: &[u32]) {
        let above = |(row, columns): (u32, &[u32])| columns.iter().filter(|&&c| c > row).count();
        let count: usize = self.each_row(w).map(above).sum();
        assert!(count == self.faces, "{} faces, not {count}", self.faces);
    }

    /// Each row with its columns.
    fn each_row<'a>(&self, w: &'a [u32]) -> impl Iterator<Item = (u32, &'a [u32])> + use<'a> {
        let columns = &w[self.columns..][..self.entries];
        let ends = w[self.offsets..][..=self.rows].windows(2);
        (0..).zip(ends.map(|ends| &columns[ends[0] as usize..ends[1] as usize]))
    }
}
