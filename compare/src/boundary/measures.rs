//! The measures of a residual, of `measure`.

use super::{
    probe_measure, probe_normalization, probe_relative, probe_threshold, require_region, yes,
};
use oracle::MultigridResidualNorm;

fn number(norm: MultigridResidualNorm) -> u8 {
    match norm {
        MultigridResidualNorm::AbsoluteL2 => 0,
        MultigridResidualNorm::NormalizedL1 => 1,
    }
}

/// The norm of the `n` words at `residual`; None where it is not finite.
pub fn measure(
    f: &[f64],
    n: usize,
    residual: usize,
    norm: MultigridResidualNorm,
    factor: f64,
) -> Option<f64> {
    require_region(f.len(), residual, n);
    let mut out = [0.0];
    // SAFETY: the pointers are slices' own, with their lengths, and the region lies inside.
    let finite = unsafe {
        probe_measure(
            f.as_ptr(),
            f.len(),
            n,
            residual,
            number(norm),
            factor,
            out.as_mut_ptr(),
            out.len(),
        )
    };
    yes(finite).then_some(out[0])
}

/// Where the four vectors of a normalization stand.
pub struct Vectors {
    pub x: usize,
    pub rhs: usize,
    pub product: usize,
    pub rowsums: usize,
}

/// The factor by which a norm is divided.
pub fn normalization(f: &[f64], n: usize, at: &Vectors, norm: MultigridResidualNorm) -> f64 {
    for start in [at.x, at.rhs, at.product, at.rowsums] {
        require_region(f.len(), start, n);
    }
    // SAFETY: the pointer is the slice's own, with its length, and the regions lie inside.
    unsafe {
        probe_normalization(
            f.as_ptr(),
            f.len(),
            n,
            at.x,
            at.rhs,
            at.product,
            at.rowsums,
            number(norm),
        )
    }
}

pub fn threshold(absolute: f64, relative: f64, initial: f64) -> f64 {
    probe_threshold(absolute, relative, initial)
}

pub fn relative(initial: f64, last: f64) -> f64 {
    probe_relative(initial, last)
}
