//! The terminal level, of `coarse`.

use super::kernels::{Refused, verdict};
use super::{probe_cholesky, probe_solve, probe_solve_factor, require_below, require_region};

/// How many words a packed triangle of `n` rows has.
pub fn triangle(n: usize) -> usize {
    n * (n + 1) / 2
}

/// Where the terminal level stands: its matrix, its `size` coupled rows and their packed factor.
pub struct Terminal {
    pub rows: usize,
    pub entries: usize,
    pub offsets: usize,
    pub columns: usize,
    pub values: usize,
    pub size: usize,
    pub coupled: usize,
    pub factor: usize,
}

/// The vectors of a solve.
pub struct Solution {
    pub inverse: usize,
    pub rhs: usize,
    pub x: usize,
    pub work: usize,
}

impl Terminal {
    fn require_coupled(&self, w: &[u32]) {
        require_region(w.len(), self.coupled, self.size);
        require_below(&w[self.coupled..][..self.size], self.rows);
    }

    /// Writes the factor; what is required is `TerminalOk` of `coarse`.
    pub fn cholesky(&self, w: &[u32], f: &mut [f64], level: u64) -> Result<(), Refused> {
        require_region(w.len(), self.offsets, self.rows + 1);
        require_region(w.len(), self.columns, self.entries);
        self.require_coupled(w);
        require_region(self.factor, self.values, self.entries);
        require_region(f.len(), self.factor, triangle(self.size));
        require_below(&w[self.offsets + 1..][..self.rows], self.entries + 1);
        // SAFETY: it was tested just now.
        unsafe { self.cholesky_untested(w, f, level) }
    }

    /// # Safety
    ///
    /// What `cholesky` tests passes.
    pub unsafe fn cholesky_untested(
        &self,
        w: &[u32],
        f: &mut [f64],
        level: u64,
    ) -> Result<(), Refused> {
        let mut place = [0; 2];
        // SAFETY: the pointers are slices' own, with their lengths, and the caller has the rest.
        let answer = unsafe {
            probe_cholesky(
                w.as_ptr(),
                w.len(),
                f.as_mut_ptr(),
                f.len(),
                self.rows,
                self.entries,
                self.offsets,
                self.columns,
                self.values,
                self.size,
                self.coupled,
                self.factor,
                level,
                place.as_mut_ptr(),
                place.len(),
            )
        };
        verdict(answer, place)
    }

    /// x of the whole level; what is required is `SolutionOk` of `coarse`.
    pub fn solve(&self, w: &[u32], f: &mut [f64], at: &Solution) -> Result<(), Refused> {
        self.require_coupled(w);
        require_region(at.rhs, self.factor, triangle(self.size));
        require_region(at.rhs, at.inverse, self.rows);
        require_region(at.x, at.rhs, self.rows);
        require_region(at.work, at.x, self.rows);
        require_region(f.len(), at.work, 2 * self.size);
        let mut place = [0; 2];
        // SAFETY: the pointers are slices' own, with their lengths, and what is required was tested just now.
        let answer = unsafe {
            probe_solve(
                w.as_ptr(),
                w.len(),
                f.as_mut_ptr(),
                f.len(),
                self.rows,
                self.entries,
                self.offsets,
                self.columns,
                self.values,
                self.size,
                self.coupled,
                self.factor,
                at.inverse,
                at.rhs,
                at.x,
                at.work,
                place.as_mut_ptr(),
                place.len(),
            )
        };
        verdict(answer, place)
    }
}

/// x by the packed factor at `l`.
pub fn solve_factor(f: &mut [f64], n: usize, l: usize, rhs: usize, x: usize) {
    require_region(x, l, triangle(n));
    require_region(x, rhs, n);
    require_region(f.len(), x, n);
    // SAFETY: the pointer is the slice's own, with its length, and what is required was tested just now.
    unsafe { probe_solve_factor(f.as_mut_ptr(), f.len(), n, l, rhs, x) }
}
