//! What a solve is told and what it reports, with the names and defaults of solver.rs.

/// When a solve ends.
///
/// ```
/// use multigrid::LinearSolverOptions;
///
/// let hundred = LinearSolverOptions { max_iterations: 100, ..LinearSolverOptions::default() };
/// assert_eq!((hundred.absolute_tolerance, hundred.relative_tolerance), (1e-10, 1e-8));
/// ```
#[derive(Clone, Copy, Debug, PartialEq)]
pub struct LinearSolverOptions {
    /// A residual that is small enough, whatever the first one was; finite, not below zero.
    pub absolute_tolerance: f64,
    /// A share of the first residual that is small enough; finite, not below zero.
    pub relative_tolerance: f64,
    /// So many iterations at most, at least 1.
    pub max_iterations: u64,
}

impl Default for LinearSolverOptions {
    fn default() -> Self {
        Self {
            absolute_tolerance: 1.0e-10,
            relative_tolerance: 1.0e-8,
            max_iterations: 1_000,
        }
    }
}

/// How a solve ended.
///
/// ```
/// use multigrid::LinearSolverStatus;
///
/// assert_ne!(LinearSolverStatus::Converged, LinearSolverStatus::MaxIterations);
/// ```
#[derive(Clone, Copy, Debug, PartialEq, Eq)]
pub enum LinearSolverStatus {
    /// The last residual is small enough.
    Converged,
    /// The iterations are used up.
    MaxIterations,
}

/// What a solve reached.
///
/// ```
/// use multigrid::{AlgebraicMultigrid, CsrMatrix, LinearSolverOptions, MultigridOptions};
///
/// let matrix = CsrMatrix { rows: 1, row_offsets: &[0, 1], column_indices: &[0], values: &[2.0] };
/// let mut solver = AlgebraicMultigrid::new(matrix, &MultigridOptions::default())?;
/// let report = solver.solve(&[4.0], &mut [2.0], LinearSolverOptions::default())?;
/// assert_eq!((report.converged(), report.iterations, report.final_residual), (true, 0, 0.0));
/// # Ok::<(), multigrid::Refusal>(())
/// ```
#[derive(Clone, Copy, Debug, PartialEq)]
pub struct LinearSolveReport {
    /// How it ended.
    pub status: LinearSolverStatus,
    /// After how many iterations.
    pub iterations: u64,
    /// The norm of the first residual.
    pub initial_residual: f64,
    /// The norm of the last residual.
    pub final_residual: f64,
    /// The last by the first, zero where the first is zero.
    pub relative_residual: f64,
}

impl LinearSolveReport {
    /// Whether the last residual is small enough.
    pub fn converged(&self) -> bool {
        self.status == LinearSolverStatus::Converged
    }
}
