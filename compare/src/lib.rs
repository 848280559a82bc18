//! What the comparison and the measurements of `../bench` share: the proved exports, and cases for them.

pub mod boundary;
pub mod library;
pub mod pattern;
pub mod random;
