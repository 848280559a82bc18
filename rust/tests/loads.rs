//! Loads by the wrapper; compare/ has the call itself beside a model.

use multigrid::{load, AlgebraicMultigrid, LinearSolverOptions, MultigridOptions, Refusal};

#[test]
fn every_row_sums_to_one() {
    let cake = load(7, [5, 4, 3]).expect("it is made");
    assert_eq!((cake.rows, cake.row_offsets.len()), (60, 61));
    for row in cake.row_offsets.windows(2) {
        let entries = &cake.values[row[0] as usize..row[1] as usize];
        assert_eq!(entries.iter().sum::<f64>(), 1.0);
    }
    let mut solver =
        AlgebraicMultigrid::new(cake.matrix(), &MultigridOptions::default()).expect("it builds");
    let mut x = vec![0.0; 60];
    let report = solver.solve(&[1.0; 60], &mut x, LinearSolverOptions::default());
    assert!(report.expect("it is solved").converged());
    assert!(x.iter().all(|pressure| (pressure - 1.0).abs() < 1e-6));
}

#[test]
fn slices_are_no_longer_than_the_load() {
    let cake = load(u64::MAX, [65_536, 1, 1]).expect("it is made");
    let entries = 3 * 65_536 - 2;
    assert_eq!(
        (cake.column_indices.len(), cake.values.len()),
        (entries, entries)
    );
}

#[test]
fn what_is_no_load_is_refused() {
    let large = [65_537, 1 << 22, 1 << 32, u64::MAX];
    for extents in large.map(|extent| [extent, extent, extent]) {
        assert_eq!(load(1, extents), Err(Refusal::BadLoad));
    }
    for extents in [[0, 2, 2], [2, 0, 2], [2, 2, 0], [257, 256, 1]] {
        assert_eq!(load(1, extents), Err(Refusal::BadLoad));
    }
}
