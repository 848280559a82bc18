//! Aggregation multigrid whose calls are proved (crates/multigrid, exported by crates/multigrid_c), with the names of the
//! source. [`AlgebraicMultigrid`] owns its stores; [`lent`] has the calls as they are, over stores that the caller lends.
//!
//! ```
//! use multigrid::{AlgebraicMultigrid, CsrMatrix, LinearSolverOptions, MultigridOptions, Refusal};
//!
//! fn main() -> Result<(), Refusal> {
//!     let matrix = CsrMatrix { rows: 2, row_offsets: &[0, 2, 4], column_indices: &[0, 1, 0, 1], values: &[4.0, -2.0, -2.0, 2.0] };
//!     let mut solver = AlgebraicMultigrid::new(matrix, &MultigridOptions::default())?;
//!     let mut x = [0.0; 2];
//!     let report = solver.solve(&[2.0, 0.0], &mut x, LinearSolverOptions::default())?;
//!     assert!(report.converged());
//!     assert_eq!(x, [1.0, 1.0]);
//!     Ok(())
//! }
//! ```
//!
//! The wrapper itself is not proved; it sees to what the proved calls ask of a caller in C, and to nothing else.

#![warn(missing_docs, missing_debug_implementations)]

mod calls;
mod hierarchy;
pub mod lent;
mod load;
mod matrix_market;
mod options;
mod refusal;
mod sentences;
mod solver;

pub use hierarchy::{Hierarchy, Level, MultigridLevelStatistics};
use lent::Charge;
pub use lent::{CsrMatrix, Handle, Stores};
pub use load::{load, Load};
pub use matrix_market::MatrixFile;
pub use options::{
    MultigridCoarseSolver, MultigridOptions, MultigridResidualNorm, MultigridSmoother,
};
pub use refusal::Refusal;
pub use solver::{LinearSolveReport, LinearSolverOptions, LinearSolverStatus};
use std::fmt::{Debug, Formatter, Result as Written};

/// The version of the library.
pub const VERSION: &str = env!("CARGO_PKG_VERSION");

/// For how many levels of the finest's size there is room at first: one pairing halves the rows, two of them leave a quarter,
/// so that this is nearly always enough.
fn first_room(options: &MultigridOptions) -> u64 {
    match options.merge_levels {
        1 => 3,
        _ => 2,
    }
}

/// A hierarchy in stores of its own.
///
/// ```
/// use multigrid::{AlgebraicMultigrid, CsrMatrix, LinearSolverOptions, MultigridOptions};
///
/// let (offsets, columns) = ([0, 2, 5, 7], [0, 1, 0, 1, 2, 1, 2]);
/// let matrix = |values| CsrMatrix { rows: 3, row_offsets: &offsets, column_indices: &columns, values };
/// let mut solver = AlgebraicMultigrid::new(matrix(&[2.0, -1.0, -1.0, 2.0, -1.0, -1.0, 2.0]), &MultigridOptions::default())?;
/// solver.update_values(matrix(&[4.0, -2.0, -2.0, 4.0, -2.0, -2.0, 4.0]))?;
/// let mut x = [0.0; 3];
/// let report = solver.solve(&[2.0, 0.0, 2.0], &mut x, LinearSolverOptions::default())?;
/// assert!(report.converged() && x.iter().all(|pressure| (pressure - 1.0).abs() < 1e-8));
/// println!("{}", solver.hierarchy());
/// # Ok::<(), multigrid::Refusal>(())
/// ```
#[derive(Clone)]
pub struct AlgebraicMultigrid {
    handle: Handle,
    stores: Stores,
}

impl AlgebraicMultigrid {
    /// Rows are joined by the absolute values of the matrix.
    pub fn new(matrix: CsrMatrix<'_>, options: &MultigridOptions) -> Result<Self, Refusal> {
        Self::with_weights(matrix, None, options)
    }

    /// Rows are joined by the weights, one for each entry, instead of by the matrix.
    pub fn new_with_face_weights(
        matrix: CsrMatrix<'_>,
        face_weights: &[f64],
        options: &MultigridOptions,
    ) -> Result<Self, Refusal> {
        Self::with_weights(matrix, Some(face_weights), options)
    }

    /// Where question 9 says no, there is room for twice as many levels, up to the most that there may be.
    fn with_weights(
        matrix: CsrMatrix<'_>,
        face_weights: Option<&[f64]>,
        options: &MultigridOptions,
    ) -> Result<Self, Refusal> {
        let mut room = first_room(options);
        loop {
            let mut stores = Stores::new(Charge::most(&matrix, options, room))?;
            match lent::build(matrix, face_weights, options, &mut stores) {
                Ok(handle) => return Ok(Self { handle, stores }),
                Err(Refusal::StoreTooSmall) if room < options.max_levels => {
                    room = (2 * room).min(options.max_levels);
                }
                Err(refusal) => return Err(refusal),
            }
        }
    }

    /// New coefficients on the same pattern, which is asked, the number of rows too. Refused, the hierarchy stays as it was.
    pub fn update_values(&mut self, matrix: CsrMatrix<'_>) -> Result<(), Refusal> {
        if matrix.rows as u64 != self.handle.rows {
            return Err(Refusal::OtherPattern);
        }
        let (offsets, columns) = (matrix.row_offsets, matrix.column_indices);
        let stores = &mut self.stores;
        lent::update_values(&self.handle, offsets, columns, matrix.values, stores)
    }

    /// Solves for the right-hand side, from what `x` holds. Refused, `x` and the statistics stay as they were.
    pub fn solve(
        &mut self,
        rhs: &[f64],
        x: &mut [f64],
        options: LinearSolverOptions,
    ) -> Result<LinearSolveReport, Refusal> {
        lent::solve(&self.handle, &mut self.stores, rhs, x, options)
    }

    /// One for each level, the finest first.
    pub fn statistics(&self) -> Vec<MultigridLevelStatistics> {
        let levels = lent::statistics(&self.handle, &self.stores).unwrap_or(0);
        self.stores.statistics[..levels].to_vec()
    }

    /// The rows and entries of each level.
    pub fn hierarchy(&self) -> Hierarchy {
        let none = Hierarchy { levels: Vec::new() };
        lent::hierarchy(&self.handle, &self.stores).unwrap_or(none)
    }

    /// What the calls of [`lent`] are given with the stores.
    pub fn handle(&self) -> &Handle {
        &self.handle
    }

    /// The stores with the hierarchy in them.
    pub fn stores(&self) -> &Stores {
        &self.stores
    }

    /// A hierarchy that was saved: its handle and all of its stores, as the last call left them. What is none is refused by question 19.
    pub fn restored(handle: Handle, stores: Stores) -> Result<Self, Refusal> {
        lent::statistics(&handle, &stores)?;
        Ok(Self { handle, stores })
    }
}

/// The controls and the levels, not the millions of numbers.
impl Debug for AlgebraicMultigrid {
    fn fmt(&self, formatter: &mut Formatter<'_>) -> Written {
        formatter
            .debug_struct("AlgebraicMultigrid")
            .field("handle", &self.handle)
            .field("hierarchy", &self.hierarchy())
            .field("stores", &self.stores)
            .finish()
    }
}
