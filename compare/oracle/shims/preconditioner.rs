//! The trait that the Rust's conjugate gradients take, and three names that it hands on.

use super::LinearAlgebraError;

pub trait Preconditioner {
    fn len(&self) -> usize;
    fn apply_into(&self, rhs: &[f64], output: &mut [f64]) -> Result<(), LinearAlgebraError>;
}

pub struct IncompleteCholeskyPreconditioner;
pub struct JacobiPreconditioner;
pub struct SymmetricGaussSeidelPreconditioner;
