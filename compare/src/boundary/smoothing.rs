//! The smoothers over the kernel of a level, of `smoother`.

use super::kernels::{Refused, SymmetricMatrix, verdict};
use super::{
    probe_dic_sweep, probe_gauss_seidel, probe_smooth, probe_update_dic_diagonal, require_region,
    smoother_number,
};
use oracle::MultigridSmoother;

/// The vectors of a sweep, upward. Gauss-Seidel reads no `dic` and has no `correction`.
pub struct Sweep {
    pub dic: usize,
    pub rhs: usize,
    pub x: usize,
    pub work: usize,
    pub correction: usize,
}

impl SymmetricMatrix {
    /// `GaussSeidelOk` of `smoother`.
    fn require_gauss_seidel(&self, w: &[u32], f: &[f64], at: &Sweep) {
        self.require(w, at.rhs);
        require_region(at.x, at.rhs, self.rows);
        require_region(at.work, at.x, self.rows);
        require_region(f.len(), at.work, self.rows);
    }

    /// `SmoothOk` of `smoother`.
    fn require_smooth(&self, w: &[u32], f: &[f64], at: &Sweep) {
        self.require_gauss_seidel(w, f, at);
        require_region(at.rhs, at.dic, self.rows);
        require_region(at.correction, at.work, self.rows);
        require_region(f.len(), at.correction, self.rows);
    }

    /// The reciprocal pivots of DIC, at `d`; what is required is `DicOk` of `smoother`.
    pub fn update_dic_diagonal(
        &self,
        w: &[u32],
        f: &mut [f64],
        d: usize,
        level: u64,
    ) -> Result<(), Refused> {
        self.require(w, d);
        require_region(f.len(), d, self.rows);
        let mut place = [0; 2];
        // SAFETY: the pointers are slices' own, with their lengths, and what is required was tested just now.
        let answer = unsafe {
            probe_update_dic_diagonal(
                w.as_ptr(),
                w.len(),
                f.as_mut_ptr(),
                f.len(),
                self.rows,
                self.diagonal,
                self.inverse,
                self.offsets,
                self.neighbors,
                self.coefficients,
                d,
                level,
                place.as_mut_ptr(),
                place.len(),
            )
        };
        verdict(answer, place)
    }

    /// One sweep over x, and back where it is symmetric.
    pub fn gauss_seidel(&self, w: &[u32], f: &mut [f64], at: &Sweep, symmetric: bool) {
        self.require_gauss_seidel(w, f, at);
        // SAFETY: it was tested just now.
        unsafe { self.gauss_seidel_untested(w, f, at, symmetric) }
    }

    /// # Safety
    ///
    /// What `gauss_seidel` tests passes.
    pub unsafe fn gauss_seidel_untested(
        &self,
        w: &[u32],
        f: &mut [f64],
        at: &Sweep,
        symmetric: bool,
    ) {
        // SAFETY: the pointers are slices' own, with their lengths, and the caller has the rest.
        unsafe {
            probe_gauss_seidel(
                w.as_ptr(),
                w.len(),
                f.as_mut_ptr(),
                f.len(),
                self.rows,
                self.diagonal,
                self.inverse,
                self.offsets,
                self.neighbors,
                self.coefficients,
                at.rhs,
                at.x,
                at.work,
                u8::from(symmetric),
            );
        }
    }

    /// One DIC sweep over x.
    pub fn dic_sweep(&self, w: &[u32], f: &mut [f64], at: &Sweep) {
        self.require_smooth(w, f, at);
        // SAFETY: it was tested just now.
        unsafe { self.dic_sweep_untested(w, f, at) }
    }

    /// # Safety
    ///
    /// What `dic_sweep` tests passes.
    pub unsafe fn dic_sweep_untested(&self, w: &[u32], f: &mut [f64], at: &Sweep) {
        // SAFETY: the pointers are slices' own, with their lengths, and the caller has the rest.
        unsafe {
            probe_dic_sweep(
                w.as_ptr(),
                w.len(),
                f.as_mut_ptr(),
                f.len(),
                self.rows,
                self.diagonal,
                self.inverse,
                self.offsets,
                self.neighbors,
                self.coefficients,
                at.dic,
                at.rhs,
                at.x,
                at.work,
                at.correction,
            );
        }
    }

    /// The sweeps of a smoother, and question 25.
    pub fn smooth(
        &self,
        w: &[u32],
        f: &mut [f64],
        at: &Sweep,
        kind: MultigridSmoother,
        sweeps: u64,
    ) -> Result<(), Refused> {
        self.require_smooth(w, f, at);
        let mut place = [0; 2];
        // SAFETY: the pointers are slices' own, with their lengths, and what is required was tested just now.
        let answer = unsafe {
            probe_smooth(
                w.as_ptr(),
                w.len(),
                f.as_mut_ptr(),
                f.len(),
                self.rows,
                self.diagonal,
                self.inverse,
                self.offsets,
                self.neighbors,
                self.coefficients,
                at.dic,
                smoother_number(kind),
                at.rhs,
                at.x,
                at.work,
                at.correction,
                sweeps,
                place.as_mut_ptr(),
                place.len(),
            )
        };
        verdict(answer, place)
    }
}
