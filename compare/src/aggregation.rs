//! `pairs` of `aggregation` beside that of aggregation.rs.

use crate::Effort;
use crate::boundary::aggregation::Graph;
use crate::matrices::Case;
use crate::random::Random;
use crate::report::Report;
use crate::stores::{Layout, narrow, same_numbers};
use oracle::{CsrMatrix, parts};

pub fn compare(report: &mut Report, random: &mut Random, effort: Effort) {
    for turn in 0..effort.times(3_000, 100_000) {
        let case = Case::draw(random, turn);
        report.answer(&format!("aggregation/shape/{}", case.shape));
        for forward in [true, false] {
            let weights = case.weights.as_deref();
            let name = format!("aggregation/pairs/{}", case.strengths);
            let (_, count) = pairs(
                report,
                random,
                &name,
                &case.matrix,
                weights,
                forward,
                || case.shown(),
            );
            let alone = if count == case.matrix.nrows() {
                "all-alone"
            } else {
                "fewer"
            };
            report.answer(&format!("aggregation/aggregates/{alone}"));
        }
    }
}

/// The Rust's answer, with ours beside it, twice over unlike noise.
pub fn pairs(
    report: &mut Report,
    random: &mut Random,
    name: &str,
    matrix: &CsrMatrix,
    weights: Option<&[f64]>,
    forward: bool,
    shown: impl Fn() -> String,
) -> (Vec<usize>, usize) {
    let theirs = parts::pairs(matrix, forward, weights);
    for _ in 0..2 {
        let (map, count, kept) = ours(random, matrix, weights, forward, 0);
        let kind = report.kind(name);
        let agrees = count == theirs.1 && same_numbers(&map, &theirs.0);
        report.case(kind, agrees, || {
            let way = if forward { "up" } else { "down" };
            format!(
                "{way}: ours {count} {map:?} theirs {theirs:?} of {}",
                shown()
            )
        });
        let kind = report.kind("aggregation/outside-unchanged");
        report.case(kind, kept, &shown);
    }
    theirs
}

/// The map, the count, and whether nothing but the map and the sizes behind it changed.
pub fn ours(
    random: &mut Random,
    matrix: &CsrMatrix,
    weights: Option<&[f64]>,
    forward: bool,
    cap: u64,
) -> (Vec<u32>, usize, bool) {
    let (rows, entries) = (matrix.nrows(), matrix.nnz());
    let (mut words, mut floats) = (Layout::default(), Layout::default());
    let [offsets, columns] = words.place_any_order(random, [rows + 1, entries]);
    let graph = Graph {
        rows,
        entries,
        offsets,
        columns,
        map: words.place(random, rows + rows),
        weights: floats.place(random, entries),
        absolute: weights.is_none(),
        cap,
    };
    let (mut words, mut floats) = (words.store(random), floats.store(random));
    words.put(graph.offsets, narrow(matrix.row_offsets()));
    words.put(graph.columns, narrow(matrix.column_indices()));
    floats.put(
        graph.weights,
        weights.unwrap_or(matrix.values()).iter().copied(),
    );
    let written = [(graph.map, rows + rows)];
    let ((count, kept), read) = floats.call(&[], |f| {
        words.call(&written, |w| graph.pairs(w, f, forward))
    });
    (words.at(graph.map, rows).to_vec(), count, kept && read)
}
