//! The controls, with the names and defaults of options.rs; docs/CONTROLS.md has each with its range and advice.

use crate::calls;

/// What damps the rough part of an error on each level.
///
/// ```
/// use multigrid::{MultigridOptions, MultigridSmoother};
///
/// assert_eq!(MultigridOptions::default().smoother, MultigridSmoother::DicGaussSeidel);
/// ```
#[derive(Clone, Copy, Debug, PartialEq, Eq)]
pub enum MultigridSmoother {
    /// Forward sweeps.
    GaussSeidel,
    /// Each sweep forward, then backward.
    SymmetricGaussSeidel,
    /// Sweeps of a diagonal incomplete Cholesky factor, then as many of Gauss-Seidel.
    DicGaussSeidel,
}

/// How the size of a residual is measured.
///
/// ```
/// use multigrid::{MultigridOptions, MultigridResidualNorm};
///
/// assert_eq!(MultigridOptions::default().residual_norm, MultigridResidualNorm::NormalizedL1);
/// ```
#[derive(Clone, Copy, Debug, PartialEq, Eq)]
pub enum MultigridResidualNorm {
    /// The root of the sum of squares.
    AbsoluteL2,
    /// The sum of absolute values, by a normalization of the first system.
    NormalizedL1,
}

/// The solver of the last level. A build takes `Cholesky` alone.
///
/// ```
/// use multigrid::{AlgebraicMultigrid, CsrMatrix, MultigridCoarseSolver, MultigridOptions, Refusal};
///
/// let options = MultigridOptions { coarse_solver: MultigridCoarseSolver::PcgDic, ..MultigridOptions::default() };
/// let matrix = CsrMatrix { rows: 1, row_offsets: &[0, 1], column_indices: &[0], values: &[2.0] };
/// assert_eq!(AlgebraicMultigrid::new(matrix, &options).err(), Some(Refusal::NotCholesky));
/// ```
#[derive(Clone, Copy, Debug, PartialEq, Eq)]
pub enum MultigridCoarseSolver {
    /// Conjugate gradients, which are refused by question 7.
    PcgDic,
    /// The factor of the last level's matrix.
    Cholesky,
}

/// The controls of a build.
///
/// ```
/// use multigrid::MultigridOptions;
///
/// let options = MultigridOptions { krylov_dimension: 8, ..MultigridOptions::default() };
/// assert_eq!((options.merge_levels, options.krylov_dimension), (2, 8));
/// ```
#[derive(Clone, Copy, Debug, PartialEq)]
pub struct MultigridOptions {
    /// What damps the rough part of an error.
    pub smoother: MultigridSmoother,
    /// How a residual is measured.
    pub residual_norm: MultigridResidualNorm,
    /// Sweeps before a coarse correction, 0 to `max_sweeps`; 0.
    pub pre_sweeps: u64,
    /// Sweeps after a coarse correction, 0 to `max_sweeps`; 2.
    pub post_sweeps: u64,
    /// Sweeps after the correction of the finest level, 1 to 64; 1.
    pub finest_sweeps: u64,
    /// How many sweeps more each coarser level makes, any; 1.
    pub sweep_level_multiplier: u64,
    /// The most sweeps of a level, 1 to 64; 4.
    pub max_sweeps: u64,
    /// Coupled rows on the last level, at most, 1 to 256; 10.
    pub coarsest_cells: u64,
    /// The most levels, 1 to 128; 64.
    pub max_levels: u64,
    /// Pairings combined into one stored level, 1 to 4; 2.
    pub merge_levels: u64,
    /// Restart length of the accelerator, 0 to 16; zero selects plain cycles; 4.
    pub krylov_dimension: u64,
    /// What solves the last level.
    pub coarse_solver: MultigridCoarseSolver,
    /// Finite, not below zero; Cholesky does not use it.
    pub coarse_absolute_tolerance: f64,
    /// Finite, not below zero; Cholesky does not use it.
    pub coarse_relative_tolerance: f64,
    /// At least 1; Cholesky does not use it.
    pub coarse_max_iterations: u64,
    /// Whether each coarse correction is scaled by its energy; yes.
    pub scale_correction: bool,
    /// The most rows of an aggregate in each pairing, 2 to 65,535; zero, no cap, is the default.
    pub max_aggregate_cells: u64,
}

/// The source's, but for the coarse solver: its own default, `PcgDic`, is refused.
impl Default for MultigridOptions {
    fn default() -> Self {
        // SAFETY: numbers alone cross.
        let due = unsafe { calls::multigrid_default_options() };
        Self {
            smoother: MultigridSmoother::DicGaussSeidel,
            residual_norm: MultigridResidualNorm::NormalizedL1,
            pre_sweeps: due.pre_sweeps,
            post_sweeps: due.post_sweeps,
            finest_sweeps: due.finest_sweeps,
            sweep_level_multiplier: due.sweep_level_multiplier,
            max_sweeps: due.max_sweeps,
            coarsest_cells: due.coarsest_cells,
            max_levels: due.max_levels,
            merge_levels: due.merge_levels,
            krylov_dimension: due.krylov_dimension,
            coarse_solver: MultigridCoarseSolver::Cholesky,
            coarse_absolute_tolerance: due.coarse_absolute_tolerance,
            coarse_relative_tolerance: due.coarse_relative_tolerance,
            coarse_max_iterations: due.coarse_max_iterations,
            scale_correction: true,
            max_aggregate_cells: due.max_aggregate_cells,
        }
    }
}

impl MultigridOptions {
    /// As the calls take them.
    pub(crate) fn crossing(&self) -> calls::Options {
        calls::Options {
            smoother: match self.smoother {
                MultigridSmoother::GaussSeidel => 0,
                MultigridSmoother::SymmetricGaussSeidel => 1,
                MultigridSmoother::DicGaussSeidel => 2,
            },
            residual_norm: match self.residual_norm {
                MultigridResidualNorm::AbsoluteL2 => 0,
                MultigridResidualNorm::NormalizedL1 => 1,
            },
            pre_sweeps: self.pre_sweeps,
            post_sweeps: self.post_sweeps,
            finest_sweeps: self.finest_sweeps,
            sweep_level_multiplier: self.sweep_level_multiplier,
            max_sweeps: self.max_sweeps,
            coarsest_cells: self.coarsest_cells,
            max_levels: self.max_levels,
            merge_levels: self.merge_levels,
            krylov_dimension: self.krylov_dimension,
            coarse_solver: match self.coarse_solver {
                MultigridCoarseSolver::PcgDic => 0,
                MultigridCoarseSolver::Cholesky => 1,
            },
            coarse_absolute_tolerance: self.coarse_absolute_tolerance,
            coarse_relative_tolerance: self.coarse_relative_tolerance,
            coarse_max_iterations: self.coarse_max_iterations,
            scale_correction: u64::from(self.scale_correction),
            max_aggregate_cells: self.max_aggregate_cells,
        }
    }
}

#[cfg(test)]
mod tests {
    use super::*;
    use std::mem::size_of;

    #[test]
    fn enums_of_the_defaults_are_the_librarys() {
        // SAFETY: numbers alone cross.
        let due = unsafe { calls::multigrid_default_options() };
        let ours = MultigridOptions::default().crossing();
        assert_eq!(
            (ours.smoother, ours.residual_norm),
            (due.smoother, due.residual_norm)
        );
        assert_eq!(
            (ours.coarse_solver, ours.scale_correction),
            (due.coarse_solver, due.scale_correction)
        );
    }

    #[test]
    fn structs_have_the_sizes_of_the_header() {
        assert_eq!(size_of::<calls::Options>(), 136);
        assert_eq!(size_of::<calls::Hierarchy>(), 160);
        assert_eq!(
            (size_of::<calls::Built>(), size_of::<calls::Report>()),
            (184, 64)
        );
    }
}
