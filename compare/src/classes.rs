//! What the cases have to reach: the kinds of cases, and the answers that these meet. What is listed and not met is a
//! difference, so that a comparison which asks less than it did cannot pass in silence.
//!
//! Each line is the start of some names, and their ends.

use crate::Effort;
use crate::report::Report;

type Names = [(&'static str, &'static str)];

/// The kinds that have cases, in either form: those of that name, or all that begin with it.
const KINDS: &Names = &[
    ("acceleration", "correct outside-unchanged"),
    ("aggregation", "pairs outside-unchanged"),
    ("boundary", "exports-and-rust rust-and-header called-from-c"),
    (
        "build",
        "ordinary mixed-signs whole some-zero zero spread tiny huge cancelling \
        exactly-enough a-word-short a-float-short a-record-short \
        spoiled-arrays spoiled-one-weight spoiled-weight-count spoiled-controls spoiled-not-cholesky spoiled-no-rows \
        shaken-mirrors spoiled-one-diagonal spoiled-one-value spoiled-one-face spoiled-entry-missing spoiled-small-pivot \
        65536-rows 65537-rows rows-that-wrap 1048576-entries 1048577-entries 256-coarsest-cells 257-coarsest-cells \
        257-coupled-rows no-rows no-rows-weighed no-rows-one-weight no-rows-one-entry no-rows-one-value no-rows-no-offset \
        no-rows-word-short no-rows-float-short no-rows-record-short no-diagonals row-of-15 small-pivot small-pivot-no-dic 16-before-17 12-on-level-1 \
        12-on-level-3 12-on-merged mirrors-apart-by-1e-12 mirrors-apart-by-more one-unit-at-8191 one-unit-at-8192 \
        mirrors-whose-difference-overflows tie-on-one-side 13-on-level-1 16-on-level-1 17-on-level-1 18 \
        path-of-4 path-of-4-word-short path-of-4-float-short path-of-4-record-short nothing-lent \
        oracle-says-what-was-said oracle-steps-and-whole",
    ),
    (
        "capped",
        "pairs/star/with-weights pairs/star/without-weights pairs/narrow-grid/with-weights pairs/narrow-grid/without-weights \
        pairs/any-shape/with-weights pairs/any-shape/without-weights pairs/hand-both-full pairs/hand-both-open pairs/hand-equal \
        pairs/hand-equal-first-full pairs/hand-strongest-full pairs/hand-strongest-open pairs/hand-star-up pairs/hand-star-down \
        pairs/no-more-rows-than-the-cap pairs/model-without-cap pairs/model-says-what-was-said build/with-weights \
        build/without-weights build/refused-by-6 refreshed-beside-fresh",
    ),
    ("coarse", "cholesky solve solve_factor outside-unchanged"),
    ("csr", "check_matrix check_weights"),
    (
        "cycle",
        "restrict prolong add_prolonged subtract correction_factor add_scaled add_plain outside-unchanged",
    ),
    ("damage", "stores"),
    ("empty", "build calls handle"),
    (
        "faces",
        "face_offsets fill_faces mirrors diagonals first-refusal search coupled_count coupled_rows outside-unchanged",
    ),
    (
        "float",
        "is_finite abs max_num square bits sqrt saturating_add saturating_mul",
    ),
    (
        "galerkin",
        "pattern compose sum_entries sum_given weights question-18 whole-product outside-unchanged",
    ),
    (
        "load",
        "draws-of-seed-1 two-by-two by-hand room drawn one-cell-deep flat",
    ),
    ("library", "exports-and-rust rust-and-header called-from-c"),
    (
        "matrix",
        "apply residual row_sums_into update update_given mirrors_agree take_faces outside-unchanged",
    ),
    (
        "measure",
        "measure normalization threshold relative store-unchanged",
    ),
    ("options", "validate validate/cap"),
    ("oracle", "worked-examples"),
    (
        "press",
        "program hand examples model-says-what-was-said examples-say-what-stands-beside-them as-drawn in-pieces \
        hand/smallpress hand/swapped hand/weights-after-solve hand/empty-input hand/one-stray-byte hand/bad-byte-in-short-controls \
        hand/64-rows hand/65-rows hand/64-rows-320-entries hand/320-entries hand/321-entries hand/nan-value hand/nan-start \
        hand/limit-0 hand/limit hand/refused-update-then-solve hand/bad-build hand/cap-1 hand/cap-65535 hand/star-cap-2 hand/no-rows-solve",
    ),
    (
        "sequence",
        "with-weights without-weights shaken-mirrors/with-weights shaken-mirrors/without-weights weeks large/AbsoluteL2/plain large/AbsoluteL2/gcr large/NormalizedL1/plain \
        large/NormalizedL1/gcr hand-13-on-level-1 hand-16-on-level-1 hand-17 hand-17-on-level-1 hand-18 hand-27 hand-one-level \
        hand-deep-no-pre-sweeps hand-deep-pre-sweeps",
    ),
    (
        "smoother",
        "forward symmetric dic_sweep update_dic_diagonal smooth outside-unchanged",
    ),
    ("unscaled", "with-weights without-weights"),
    ("vector", "dot norm_l2 all_finite store-unchanged"),
];

/// The answers that cases meet which are drawn, in either form. Where a sum in blocks and one that is not would be told apart,
/// that is an answer too.
const DRAWN: &Names = &[
    (
        "acceleration/correct",
        "used-1 used-2 used-3 used-4 used-5 refused-28 refused-29 refused-30 one-sum-would-show",
    ),
    ("aggregation/aggregates", "all-alone fewer"),
    (
        "aggregation/shape",
        "path grid random disconnected star dense",
    ),
    (
        "build/accepted",
        "levels-00 levels-01 levels-02 levels-03 levels-04 levels-05 levels-06",
    ),
    (
        "build",
        "refused-01 refused-02 refused-03 refused-04 refused-05 refused-06 refused-07 refused-09 refused-10 \
        refused-11 refused-12 refused-12/below-finest refused-13 refused-14 refused-15 refused-15/below-finest refused-16 \
        refused-16/below-finest refused-17 refused-18",
    ),
    (
        "capped/pairs",
        "free-beside-full alone weaker-taken second-of-equals-taken strongest-is-open now-full cap-2-up/free-beside-full \
        cap-2-up/alone cap-2-up/now-full cap-2-down/free-beside-full cap-2-down/alone cap-2-down/now-full",
    ),
    (
        "capped/build",
        "accepted/levels-01 accepted/levels-02 accepted/levels-03 accepted/levels-04 refused-09 refused-14 other-than-without",
    ),
    ("capped/refreshed", "solved"),
    ("coarse/cholesky", "passed refused-15"),
    ("coarse/solve", "passed refused-24 no-terminal"),
    ("csr/check_matrix", "passes refused-1 refused-2 refused-3"),
    ("csr/check_weights", "passes refused-4 refused-5"),
    ("cycle/add_prolonged", "minus-zero-and-minus-zero"),
    (
        "cycle/correction_factor",
        "zero other refused-26 refused-27 blocks-would-show",
    ),
    (
        "damage/changed",
        "words floats levels rows entries one-control valid-controls controls words-lent floats-lent records",
    ),
    (
        "damage/solve",
        "accepted refused-19 refused-20 refused-21 refused-22 refused-23 refused-24 refused-25 refused-26 refused-28 \
        refused-29 refused-30",
    ),
    (
        "damage/update",
        "accepted refused-10 refused-11 refused-12 refused-13 refused-15 refused-16 refused-19 refused-31",
    ),
    (
        "empty/handle",
        "sound refused-19/levels refused-19/rows refused-19/entries refused-19/controls",
    ),
    (
        "empty/solve",
        "AbsoluteL2/converged NormalizedL1/converged refused-20 refused-21",
    ),
    ("empty/update", "accepted refused-31"),
    ("faces/coupled_rows", "none some all"),
    ("faces/diagonals", "passed refused-11"),
    ("faces/mirrors", "passed refused-10"),
    ("faces/new", "passed refused-10 refused-11"),
    ("galerkin/question-18", "finite not-finite"),
    ("galerkin/weights", "finite not-finite"),
    ("load", "made refused-35"),
    ("matrix/apply", "finite not-finite"),
    ("matrix/residual", "finite not-finite"),
    ("matrix/row_sums_into", "finite not-finite"),
    ("matrix/mirrors_agree", "yes no"),
    ("matrix/take_faces", "yes no"),
    (
        "matrix/update",
        "passed face-not-finite refused-12 refused-13",
    ),
    (
        "matrix/update_given",
        "passed face-not-finite refused-12 refused-13",
    ),
    (
        "measure/measure/AbsoluteL2",
        "finite refused-23 blocks-would-show",
    ),
    (
        "measure/measure/NormalizedL1",
        "finite refused-23 blocks-would-show",
    ),
    (
        "measure/normalization",
        "one floor finite refused-22 blocks-would-show",
    ),
    ("options/validate", "passes refuses"),
    (
        "press/build",
        "levels-01 levels-02 levels-03 refused-06 refused-09 refused-10 refused-12 refused-14",
    ),
    (
        "press/refused-32",
        "misplaced-mark short-record unknown-mark",
    ),
    (
        "press/solve",
        "converged converged-at-once limit refused-21",
    ),
    ("press/update", "accepted refused-10 refused-12"),
    ("press/end", "accepted"),
    ("sequence/fresh", "build-accepted"),
    (
        "sequence/solve",
        "converged converged-at-once iterations-used-up refused-20 refused-21 refused-22 refused-23 refused-24 refused-25 \
        refused-26 refused-28 refused-29 refused-30 large/AbsoluteL2/plain large/AbsoluteL2/gcr large/NormalizedL1/plain \
        large/NormalizedL1/gcr",
    ),
    (
        "sequence/sweeps",
        "below-the-end one-counter-stopped the-sum-stopped depth-0/none-before depth-1/none-before depth-1/some-before \
        depth-2/none-before depth-2/some-before depth-3/none-before depth-3/some-before",
    ),
    (
        "sequence/update",
        "accepted refused-10 refused-12 refused-12/below-finest refused-13 refused-15 refused-15/below-finest refused-16 \
        refused-31",
    ),
    ("smoother/forward", "finite not-finite"),
    ("smoother/symmetric", "finite not-finite"),
    ("smoother/dic_sweep", "finite not-finite"),
    ("smoother/smooth/GaussSeidel", "no-sweep passed refused-25"),
    (
        "smoother/smooth/SymmetricGaussSeidel",
        "no-sweep passed refused-25",
    ),
    (
        "smoother/smooth/DicGaussSeidel",
        "no-sweep passed refused-25",
    ),
    (
        "smoother/update_dic_diagonal",
        "passed refused-16 refused-17",
    ),
    ("unscaled/solve", "minus-zero-below"),
    ("vector/dot", "finite not-finite one-sum-would-show"),
    ("vector/norm_l2", "finite not-finite one-sum-would-show"),
    ("vector/all_finite", "finite not-finite"),
];

/// Those that drawn cases never meet, or too seldom: a hand-made case meets them, in either form.
const BY_HAND: &Names = &[
    ("build/accepted", "levels-08"),
    ("build", "refused-13/below-finest refused-17/below-finest"),
    ("capped/pairs", "alone weaker-taken second-of-equals-taken"),
    (
        "press/build",
        "a-cap-counts levels-01 levels-02 refused-02 refused-03 refused-05 refused-06 refused-09 refused-10 refused-11 refused-12",
    ),
    (
        "press/refused-32",
        "byte-out-of-range misplaced-mark missing-record repeated-mark short-record stray-byte too-large unknown-mark",
    ),
    (
        "press/solve",
        "converged converged-at-once limit refused-21",
    ),
    ("press/update", "accepted refused-10 refused-12 refused-15"),
    ("sequence/solve", "refused-27"),
    (
        "sequence/sweeps",
        "depth-4/none-before depth-4/some-before depth-5/none-before depth-5/some-before",
    ),
    (
        "sequence/update",
        "refused-13/below-finest refused-16/below-finest refused-17 refused-17/below-finest refused-18",
    ),
];

/// Those that are so rare that cases which are drawn meet them in the long form alone.
const LONG: &Names = &[
    (
        "press/build",
        "a-cap-counts levels-04 levels-05 refused-02 refused-03 refused-05 refused-11 refused-13 refused-15 refused-16 refused-17 refused-18",
    ),
    (
        "press/refused-32",
        "byte-out-of-range missing-record repeated-mark stray-byte too-large",
    ),
    (
        "press/solve",
        "refused-22 refused-23 refused-24 refused-25 refused-26 refused-28 refused-29 refused-30",
    ),
    ("press/update", "refused-13 refused-15 refused-16"),
    ("damage/update", "refused-18"),
    ("sequence/fresh", "build-refused"),
    ("sequence/update", "refused-16/below-finest refused-18"),
];

/// Holds what was met in this form against the lists, of one comparison or of all.
pub fn compare(report: &mut Report, effort: Effort, only: Option<&str>) {
    let asked = |name: &str| {
        let first = name.split('/').next();
        // The library's boundary is compared with the others'.
        let first = if first == Some("library") {
            Some("boundary")
        } else {
            first
        };
        only.is_none() || only == first
    };
    let long = match effort {
        Effort::Quick => &[],
        Effort::Long => LONG,
    };
    let of_drawn = DRAWN.iter().chain(long);
    let kinds = names(KINDS).map(|name| (report.cases(&name) > 0, name, "kind has no case"));
    let drawn = of_drawn
        .flat_map(one)
        .map(|name| (report.times(&name).0 > 0, name, "answer is not met"));
    let by_hand =
        names(BY_HAND).map(|name| (report.times(&name).1 > 0, name, "answer is not met by hand"));
    let found: Vec<_> = kinds.chain(drawn).chain(by_hand).collect();
    let kind = report.kind("classes/met");
    for (met, name, sentence) in found {
        if asked(&name) {
            report.case(kind, met, || format!("{name}: this {sentence}"));
        }
    }
}

fn names(lines: &'static Names) -> impl Iterator<Item = String> {
    lines.iter().flat_map(one)
}

fn one(&(start, ends): &(&'static str, &'static str)) -> impl Iterator<Item = String> {
    let ends = ends.split_ascii_whitespace();
    ends.map(move |end| format!("{start}/{end}"))
}
