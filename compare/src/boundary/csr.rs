//! The questions on lent arrays, of `csr`. They require nothing of the arrays.

use super::{probe_check_matrix, probe_check_weights};

/// The question that refuses a matrix in compressed rows, or zero.
pub fn check_matrix(rows: usize, offsets: &[u32], columns: &[u32], values: &[f64]) -> u64 {
    // SAFETY: the pointers are slices' own, with their lengths.
    unsafe {
        probe_check_matrix(
            rows,
            offsets.as_ptr(),
            offsets.len(),
            columns.as_ptr(),
            columns.len(),
            values.as_ptr(),
            values.len(),
        )
    }
}

/// The question that refuses weights for as many entries, or zero.
pub fn check_weights(weights: &[f64], entries: usize) -> u64 {
    // SAFETY: the pointer is the slice's own, with its length.
    unsafe { probe_check_weights(weights.as_ptr(), weights.len(), entries) }
}
