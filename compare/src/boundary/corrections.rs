//! The float work of a cycle, of `cycle`, and a step of the accelerator, of `acceleration`.

use super::{
    probe_add_plain, probe_add_prolonged, probe_add_scaled, probe_correct, probe_correction_factor,
    probe_prolong, probe_restrict, probe_subtract, require_below, require_region,
};

/// A map of `n` rows to `count` aggregates.
pub struct Transfer {
    pub n: usize,
    pub count: usize,
    pub map: usize,
}

impl Transfer {
    fn require(&self, w: &[u32]) {
        require_region(w.len(), self.map, self.n);
        require_below(&w[self.map..][..self.n], self.count);
    }

    /// The residuals, added up over the aggregates.
    pub fn restrict(&self, w: &[u32], f: &mut [f64], residual: usize, out: usize) {
        self.require(w);
        require_region(out, residual, self.n);
        require_region(f.len(), out, self.count);
        let &Self { n, count, map } = self;
        let (words, floats) = (w.len(), f.len());
        // SAFETY: the pointers are slices' own, with their lengths, and what is required was tested just now.
        unsafe {
            probe_restrict(
                w.as_ptr(),
                words,
                f.as_mut_ptr(),
                floats,
                n,
                count,
                map,
                residual,
                out,
            );
        }
    }

    /// Each row's coarse solution.
    pub fn prolong(&self, w: &[u32], f: &mut [f64], coarse: usize, out: usize) {
        self.require(w);
        require_region(coarse, out, self.n);
        require_region(f.len(), coarse, self.count);
        let &Self { n, count, map } = self;
        let (words, floats) = (w.len(), f.len());
        // SAFETY: the pointers are slices' own, with their lengths, and what is required was tested just now.
        unsafe {
            probe_prolong(
                w.as_ptr(),
                words,
                f.as_mut_ptr(),
                floats,
                n,
                count,
                map,
                coarse,
                out,
            );
        }
    }

    /// x with each row's coarse solution added.
    pub fn add_prolonged(&self, w: &[u32], f: &mut [f64], coarse: usize, x: usize) {
        self.require(w);
        require_region(coarse, x, self.n);
        require_region(f.len(), coarse, self.count);
        let &Self { n, count, map } = self;
        let (words, floats) = (w.len(), f.len());
        // SAFETY: the pointers are slices' own, with their lengths, and what is required was tested just now.
        unsafe {
            probe_add_prolonged(
                w.as_ptr(),
                words,
                f.as_mut_ptr(),
                floats,
                n,
                count,
                map,
                coarse,
                x,
            );
        }
    }
}

/// rhs - product.
pub fn subtract(f: &mut [f64], n: usize, rhs: usize, product: usize, out: usize) {
    require_region(out, rhs, n);
    require_region(out, product, n);
    require_region(f.len(), out, n);
    // SAFETY: the pointer is the slice's own, with its length, and what is required was tested just now.
    unsafe { probe_subtract(f.as_mut_ptr(), f.len(), n, rhs, product, out) }
}

/// The regions of a scaled correction.
pub struct Correction {
    pub n: usize,
    pub correction: usize,
    pub residual: usize,
    pub product: usize,
    pub inverse: usize,
    pub x: usize,
}

impl Correction {
    /// The factor, or the question that refuses it.
    pub fn factor(&self, f: &[f64]) -> Result<f64, u64> {
        for start in [self.correction, self.residual, self.product] {
            require_region(f.len(), start, self.n);
        }
        let mut out = [0.0];
        // SAFETY: the pointers are slices' own, with their lengths, and the regions lie inside.
        let answer = unsafe {
            probe_correction_factor(
                f.as_ptr(),
                f.len(),
                self.n,
                self.correction,
                self.residual,
                self.product,
                out.as_mut_ptr(),
                out.len(),
            )
        };
        if answer == 0 { Ok(out[0]) } else { Err(answer) }
    }

    /// The scaled correction and a Jacobi step; what is required is `ScaledOk` of `cycle`.
    pub fn add_scaled(&self, f: &mut [f64], factor: f64) {
        let n = self.n;
        require_region(self.x, self.inverse, n);
        require_region(self.correction, self.x, n);
        require_region(self.product, self.correction, n);
        require_region(f.len(), self.product, n);
        require_region(f.len(), self.residual, n);
        require_apart(self.residual, self.x, n);
        // SAFETY: the pointer is the slice's own, with its length, and what is required was tested just now.
        unsafe {
            probe_add_scaled(
                f.as_mut_ptr(),
                f.len(),
                n,
                factor,
                self.correction,
                self.residual,
                self.product,
                self.inverse,
                self.x,
            );
        }
    }
}

/// The correction as it is.
pub fn add_plain(f: &mut [f64], n: usize, correction: usize, x: usize) {
    require_region(f.len(), correction, n);
    require_region(f.len(), x, n);
    require_apart(correction, x, n);
    // SAFETY: the pointer is the slice's own, with its length, and what is required was tested just now.
    unsafe { probe_add_plain(f.as_mut_ptr(), f.len(), n, correction, x) }
}

fn require_apart(one: usize, other: usize, n: usize) {
    assert!(
        one + n <= other || other + n <= one,
        "regions of {n} words at {one} and {other} overlap"
    );
}

/// The regions of a step of the accelerator, in this order.
pub struct Acceleration {
    pub n: usize,
    pub krylov: usize,
    pub solution: usize,
    pub directions: usize,
    pub images: usize,
    pub residual: usize,
    pub direction: usize,
    pub image: usize,
}

impl Acceleration {
    /// How many pairs are stored, or the question that refuses; what is required is `CorrectOk` of `acceleration`.
    pub fn correct(&self, f: &mut [f64], used: usize) -> Result<u64, u64> {
        let &Self { n, krylov, .. } = self;
        assert!(
            0 < krylov && used <= krylov,
            "{used} pairs of at most {krylov}"
        );
        require_region(self.directions, self.solution, n);
        require_region(self.images, self.directions, krylov * n);
        require_region(self.residual, self.images, krylov * n);
        require_region(self.direction, self.residual, n);
        require_region(self.image, self.direction, n);
        require_region(f.len(), self.image, n);
        let mut count = [0];
        // SAFETY: the pointers are slices' own, with their lengths, and what is required was tested just now.
        let answer = unsafe {
            probe_correct(
                f.as_mut_ptr(),
                f.len(),
                n,
                krylov,
                used,
                self.solution,
                self.directions,
                self.images,
                self.residual,
                self.direction,
                self.image,
                count.as_mut_ptr(),
                count.len(),
            )
        };
        if answer == 0 {
            Ok(count[0])
        } else {
            Err(answer)
        }
    }
}
