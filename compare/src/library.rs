//! The controls of the source as those of the library, whose counts are u64, without the cap that the source has not.

use oracle as source;

pub fn options(options: &source::MultigridOptions) -> multigrid::MultigridOptions {
    multigrid::MultigridOptions {
        smoother: match options.smoother {
            source::MultigridSmoother::GaussSeidel => multigrid::MultigridSmoother::GaussSeidel,
            source::MultigridSmoother::SymmetricGaussSeidel => {
                multigrid::MultigridSmoother::SymmetricGaussSeidel
            }
            source::MultigridSmoother::DicGaussSeidel => {
                multigrid::MultigridSmoother::DicGaussSeidel
            }
        },
        residual_norm: match options.residual_norm {
            source::MultigridResidualNorm::AbsoluteL2 => {
                multigrid::MultigridResidualNorm::AbsoluteL2
            }
            source::MultigridResidualNorm::NormalizedL1 => {
                multigrid::MultigridResidualNorm::NormalizedL1
            }
        },
        pre_sweeps: options.pre_sweeps as u64,
        post_sweeps: options.post_sweeps as u64,
        finest_sweeps: options.finest_sweeps as u64,
        sweep_level_multiplier: options.sweep_level_multiplier as u64,
        max_sweeps: options.max_sweeps as u64,
        coarsest_cells: options.coarsest_cells as u64,
        max_levels: options.max_levels as u64,
        merge_levels: options.merge_levels as u64,
        krylov_dimension: options.krylov_dimension as u64,
        coarse_solver: match options.coarse_solver {
            source::MultigridCoarseSolver::PcgDic => multigrid::MultigridCoarseSolver::PcgDic,
            source::MultigridCoarseSolver::Cholesky => multigrid::MultigridCoarseSolver::Cholesky,
        },
        coarse_absolute_tolerance: options.coarse_absolute_tolerance,
        coarse_relative_tolerance: options.coarse_relative_tolerance,
        coarse_max_iterations: options.coarse_max_iterations as u64,
        scale_correction: options.scale_correction,
        max_aggregate_cells: 0,
    }
}
