//! The wrapper's solve, update and statistics; compare/ has the calls themselves.

use multigrid::{
    AlgebraicMultigrid, CsrMatrix, LinearSolverOptions, LinearSolverStatus, MultigridOptions,
    MultigridResidualNorm, Refusal,
};

const OFFSETS: [u32; 3] = [0, 2, 4];
const COLUMNS: [u32; 4] = [0, 1, 0, 1];
const PRESS: [f64; 4] = [4.0, -2.0, -2.0, 2.0];

fn two_rows(values: &[f64]) -> CsrMatrix<'_> {
    CsrMatrix {
        rows: 2,
        row_offsets: &OFFSETS,
        column_indices: &COLUMNS,
        values,
    }
}

/// The controls of the small press.
fn built() -> AlgebraicMultigrid {
    let options = MultigridOptions {
        residual_norm: MultigridResidualNorm::AbsoluteL2,
        krylov_dimension: 0,
        ..MultigridOptions::default()
    };
    AlgebraicMultigrid::new(two_rows(&PRESS), &options).expect("it builds")
}

fn half() -> LinearSolverOptions {
    LinearSolverOptions {
        absolute_tolerance: 0.0,
        relative_tolerance: 0.5,
        max_iterations: 5,
    }
}

#[test]
fn the_small_press_converges_in_one_iteration() {
    let (mut solver, mut x) = (built(), [0.0; 2]);
    let report = solver
        .solve(&[2.0, 0.0], &mut x, half())
        .expect("it solves");
    assert_eq!(report.status, LinearSolverStatus::Converged);
    assert_eq!((report.iterations, report.initial_residual), (1, 2.0));
    assert_eq!((report.final_residual, x), (0.0, [1.0, 1.0]));
    let statistics = solver.statistics();
    assert_eq!((statistics.len(), statistics[0].visits), (1, 1));
    assert_eq!(
        (statistics[0].pre_sweeps, statistics[0].post_sweeps),
        (0, 0)
    );
}

#[test]
fn an_update_is_solved_with_and_a_refused_one_is_not() {
    let (mut solver, mut x) = (built(), [0.0; 2]);
    let fourfold = PRESS.map(|value| 4.0 * value);
    assert_eq!(solver.update_values(two_rows(&fourfold)), Ok(()));
    let refused = solver.update_values(two_rows(&[4.0, -2.0, -2.0, -1.0]));
    assert_eq!(refused, Err(Refusal::BadDiagonal { level: 0, row: 1 }));
    let other = solver.update_values(CsrMatrix {
        row_offsets: &[0, 1, 4],
        ..two_rows(&PRESS)
    });
    assert_eq!(other, Err(Refusal::OtherPattern));
    solver
        .solve(&[2.0, 0.0], &mut x, half())
        .expect("it solves");
    assert_eq!(x, [0.25, 0.25]);
}

#[test]
fn an_update_asks_the_number_of_rows() {
    let mut solver = built();
    let other = solver.update_values(CsrMatrix {
        rows: 3,
        ..two_rows(&PRESS)
    });
    assert_eq!(other, Err(Refusal::OtherPattern));
}

#[test]
fn a_clone_and_a_restored_one_solve_alike() {
    let solver = built();
    let (handle, mut stores) = (*solver.handle(), solver.stores().clone());
    let restored = AlgebraicMultigrid::restored(handle, stores.clone()).expect("it is sound");
    for mut copy in [solver.clone(), restored, solver] {
        let mut x = [0.0; 2];
        let report = copy.solve(&[2.0, 0.0], &mut x, half());
        assert_eq!(
            (report.map(|report| report.iterations), x),
            (Ok(1), [1.0, 1.0])
        );
    }
    stores.words[0] = u32::MAX;
    let refused = AlgebraicMultigrid::restored(handle, stores).err();
    assert_eq!(refused, Some(Refusal::UnsoundStores));
}

#[test]
fn a_refused_solve_leaves_everything() {
    let (mut solver, mut x) = (built(), [7.0, f64::NAN]);
    let refused = solver.solve(&[2.0, 0.0], &mut x, half());
    assert_eq!(refused, Err(Refusal::BadInput));
    assert_eq!(x[0], 7.0);
    assert_eq!(
        solver.solve(&[2.0], &mut [0.0; 2], half()),
        Err(Refusal::WrongLength)
    );
    assert_eq!(solver.statistics()[0].visits, 0);
    let said = "question 20: the right-hand side or the solution has not as many elements as there are rows";
    assert_eq!(Refusal::WrongLength.to_string(), said);
}

#[test]
fn a_drum_with_nothing_in_it_is_solved_at_once() {
    let nothing = CsrMatrix {
        rows: 0,
        row_offsets: &[0],
        column_indices: &[],
        values: &[],
    };
    for residual_norm in [
        MultigridResidualNorm::AbsoluteL2,
        MultigridResidualNorm::NormalizedL1,
    ] {
        let options = MultigridOptions {
            residual_norm,
            ..MultigridOptions::default()
        };
        let mut empty = AlgebraicMultigrid::new(nothing, &options).expect("it builds");
        assert_eq!((empty.handle().levels, empty.statistics().len()), (0, 0));
        assert_eq!(empty.update_values(nothing), Ok(()));
        let one = CsrMatrix {
            values: &[1.0],
            ..nothing
        };
        assert_eq!(empty.update_values(one), Err(Refusal::OtherPattern));
        let report = empty.solve(&[], &mut [], half()).expect("it solves");
        assert_eq!(
            (report.status, report.iterations),
            (LinearSolverStatus::Converged, 0)
        );
        for residual in [
            report.initial_residual,
            report.final_residual,
            report.relative_residual,
        ] {
            assert_eq!(residual.to_bits(), 0);
        }
        assert_eq!(
            empty.solve(&[1.0], &mut [], half()),
            Err(Refusal::WrongLength)
        );
    }
}
