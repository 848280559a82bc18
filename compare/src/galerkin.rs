//! The coarse pattern, values and weights beside `galerkin` of aggregation.rs and `restrict_weights` of hierarchy.rs.

use crate::Effort;
use crate::aggregation;
use crate::boundary;
use crate::boundary::galerkin::{Coarsening, Composition, Faces, Sums, Weights};
use crate::matrices::{Case, WHOLE};
use crate::pattern::{mirrors, random_map};
use crate::random::Random;
use crate::report::{Report, same};
use crate::stores::{Layout, Store, narrow, same_numbers};
use oracle::{CsrMatrix, during_build, parts};
use std::collections::BTreeMap;

pub fn compare(report: &mut Report, random: &mut Random, effort: Effort) {
    for turn in 0..effort.times(3_000, 100_000) {
        let case = Case::draw(random, turn);
        let forward = random.below(2) == 0;
        let (map, count) = parts::pairs(&case.matrix, forward, case.weights.as_deref());
        let step = Step::new(&case, map, count);
        step.compare(report, random, "pairs");
        step.merge(report, random, !forward);
        let (map, count) = random_map(random, case.matrix.nrows());
        Step::new(&case, map, count).compare(report, random, "random-map");
    }
}

/// One coarsening, as the Rust does it.
struct Step<'a> {
    case: &'a Case,
    map: Vec<usize>,
    count: usize,
    coarse: CsrMatrix,
    entries: Vec<usize>,
    weights: Option<Vec<f64>>,
    finite: bool,
}

impl<'a> Step<'a> {
    fn new(case: &'a Case, map: Vec<usize>, count: usize) -> Self {
        let formed = || parts::galerkin(&case.matrix, &map, count);
        let finite = during_build(formed).is_ok();
        let (coarse, entries) = formed().expect("outside a build every value passes");
        let restrict = |weights| parts::restrict_weights(weights, &entries, &coarse);
        let weights = case.weights.as_deref().map(restrict);
        Self {
            case,
            map,
            count,
            coarse,
            entries,
            weights,
            finite,
        }
    }

    /// Ours beside it, twice over unlike noise.
    fn compare(&self, report: &mut Report, random: &mut Random, map: &str) {
        for _ in 0..2 {
            let mut ours = Ours::place(random, self);
            let agrees = ours.pattern_agrees(report, self);
            let kind = report.kind(&format!("galerkin/pattern/{map}"));
            report.case(kind, agrees, || self.shown());
            // The other calls take the positions and the faces, so nothing else can be asked.
            if agrees {
                ours.values(report, self);
                ours.weights(report, self);
            }
        }
    }

    /// A second step from the coarse matrix, as merged levels take it, and the map of both.
    fn merge(&self, report: &mut Report, random: &mut Random, forward: bool) {
        let (coarse, weights) = (&self.coarse, self.weights.as_deref());
        let name = "aggregation/pairs/second-step";
        let (next, _) = aggregation::pairs(report, random, name, coarse, weights, forward, || {
            self.shown()
        });
        compose(report, random, "pairs", self, &next);
        let (next, _) = random_map(random, self.count);
        compose(report, random, "random-map", self, &next);
    }

    fn shown(&self) -> String {
        format!(
            "map {:?} count {} of {}",
            self.map,
            self.count,
            self.case.shown()
        )
    }
}

fn compose(report: &mut Report, random: &mut Random, name: &str, step: &Step, next: &[usize]) {
    let mut layout = Layout::default();
    let [map, after] = layout.place_any_order(random, [step.map.len(), next.len()]);
    let composition = Composition {
        n: step.map.len(),
        map,
        next: after,
        count: next.len(),
    };
    let mut words: Store<u32> = layout.store(random);
    words.put(map, narrow(&step.map));
    words.put(after, narrow(next));
    let ((), kept) = words.call(&[(map, composition.n)], |w| composition.compose(w));
    let theirs: Vec<usize> = step.map.iter().map(|&aggregate| next[aggregate]).collect();
    let agrees = same_numbers(words.at(map, composition.n), &theirs);
    let kind = report.kind(&format!("galerkin/compose/{name}"));
    report.case(kind, agrees && kept, || {
        format!(
            "unchanged elsewhere: {kept}; next {next:?}, {}",
            step.shown()
        )
    });
}

/// The stores and where everything stands in them.
struct Ours {
    words: Store<u32>,
    floats: Store<f64>,
    places: Coarsening,
    upper: usize,
    lower: usize,
    faces: usize,
    values: usize,
    coarse_values: usize,
    weights: usize,
    coarse_weights: usize,
}

impl Ours {
    fn place(random: &mut Random, step: &Step) -> Self {
        let matrix = &step.case.matrix;
        let (rows, entries, count) = (matrix.nrows(), matrix.nnz(), step.count);
        let total = step.coarse.nnz();
        let faces = mirrors(step.coarse.row_offsets(), step.coarse.column_indices()).len();
        let mut layout = Layout::default();
        let [offsets, columns, map] = layout.place_any_order(random, [rows + 1, entries, rows]);
        let places = Coarsening {
            rows,
            entries,
            count,
            offsets,
            columns,
            map,
            positions: layout.place(random, entries),
            coarse_offsets: layout.place(random, count + 1),
            coarse_columns: layout.place(random, entries),
            scratch: layout.place(random, Coarsening::scratch_words(rows, count)),
        };
        let [upper, lower] = layout.place_any_order(random, [faces, faces]);
        let mut words: Store<u32> = layout.store(random);
        words.put(offsets, narrow(matrix.row_offsets()));
        words.put(columns, narrow(matrix.column_indices()));
        words.put(map, narrow(&step.map));
        let mut layout = Layout::default();
        let [values, weights] = layout.place_any_order(random, [entries, entries]);
        let [coarse_values, coarse_weights] = layout.place_any_order(random, [total, total]);
        let mut floats: Store<f64> = layout.store(random);
        floats.put(values, matrix.values().iter().copied());
        if let Some(given) = &step.case.weights {
            floats.put(weights, given.iter().copied());
        }
        Self {
            words,
            floats,
            places,
            upper,
            lower,
            faces,
            values,
            coarse_values,
            weights,
            coarse_weights,
        }
    }

    /// Whether offsets, columns and positions are the Rust's; then the faces are put beside them.
    fn pattern_agrees(&mut self, report: &mut Report, step: &Step) -> bool {
        let places = &self.places;
        let written = [
            (places.positions, places.entries),
            (places.coarse_offsets, places.count + 1),
            (places.coarse_columns, places.entries),
            (
                places.scratch,
                Coarsening::scratch_words(places.rows, places.count),
            ),
        ];
        let (total, kept) = self.words.call(&written, |w| places.coarse_pattern(w));
        outside(report, "coarse_pattern", kept, step);
        let (offsets, columns) = (step.coarse.row_offsets(), step.coarse.column_indices());
        let agrees = total == step.coarse.nnz()
            && same_numbers(self.words.at(places.coarse_offsets, offsets.len()), offsets)
            && same_numbers(self.words.at(places.coarse_columns, total), columns)
            && same_numbers(
                self.words.at(places.positions, places.entries),
                &step.entries,
            );
        let faces = mirrors(offsets, columns).into_iter();
        let (upper, lower): (Vec<usize>, Vec<usize>) = faces.unzip();
        self.words.put(self.upper, narrow(&upper));
        self.words.put(self.lower, narrow(&lower));
        agrees
    }

    fn sums(&self, step: &Step, values: usize, out: usize) -> Sums {
        Sums {
            m: self.places.entries,
            positions: self.places.positions,
            values,
            total: step.coarse.nnz(),
            out,
        }
    }

    /// A call that writes a number for each coarse entry at `out`, and reads the words.
    fn write(
        &mut self,
        report: &mut Report,
        step: &Step,
        name: &str,
        out: usize,
        call: impl FnOnce(&[u32], &mut [f64]),
    ) {
        let Self { words, floats, .. } = self;
        let written = [(out, step.coarse.nnz())];
        let (((), kept), read) = words.call(&[], |w| floats.call(&written, |f| call(w, f)));
        outside(report, name, kept && read, step);
    }

    /// The sums, half plus half, and question 18.
    fn values(&mut self, report: &mut Report, step: &Step) {
        let (total, out) = (step.coarse.nnz(), self.coarse_values);
        let sums = self.sums(step, self.values, out);
        let faces = Faces {
            faces: self.faces,
            upper: self.upper,
            lower: self.lower,
            total,
            values: out,
        };
        let given = self.floats.at(self.values, sums.m).to_vec();
        for name in ["sum_given", "sum_entries"] {
            self.write(report, step, name, out, |w, f| match name {
                "sum_entries" => sums.sum_entries(w, f),
                _ => sums.sum_given(w, &given, f),
            });
            self.write(report, step, "symmetrize", out, |w, f| {
                faces.symmetrize(w, f)
            });
            let ours = self.floats.at(out, total);
            let kind = report.kind(&format!("galerkin/{name}/{}", step.case.values));
            report.case(kind, same_floats(ours, step.coarse.values()), || {
                let theirs = step.coarse.values();
                format!("ours {ours:?} theirs {theirs:?}, {}", step.shown())
            });
        }
        let ours = self.floats.at(out, total);
        if step.case.values == WHOLE {
            whole_product(report, step, ours);
        }
        let finite = boundary::all_finite(&self.floats.words, total, out);
        let kind = report.kind("galerkin/question-18");
        report.case(kind, finite == step.finite, || {
            format!("ours {finite} theirs {}, {}", step.finite, step.shown())
        });
        let answer = if step.finite { "finite" } else { "not-finite" };
        report.answer(&format!("galerkin/question-18/{answer}"));
    }

    fn weights(&mut self, report: &mut Report, step: &Step) {
        let Some(theirs) = &step.weights else { return };
        let (total, out) = (step.coarse.nnz(), self.coarse_weights);
        let weights = Weights {
            sums: self.sums(step, self.weights, out),
            count: step.count,
            offsets: self.places.coarse_offsets,
            columns: self.places.coarse_columns,
        };
        self.write(report, step, "restrict_weights", out, |w, f| {
            weights.restrict_weights(w, f)
        });
        let ours = self.floats.at(out, total);
        let kind = report.kind(&format!("galerkin/weights/{}", step.case.strengths));
        report.case(kind, same_floats(ours, theirs), || {
            format!("ours {ours:?} theirs {theirs:?}, {}", step.shown())
        });
        let finite = theirs.iter().all(|weight| weight.is_finite());
        let answer = if finite { "finite" } else { "not-finite" };
        report.answer(&format!("galerkin/weights/{answer}"));
    }
}

fn outside(report: &mut Report, call: &str, kept: bool, step: &Step) {
    let kind = report.kind("galerkin/outside-unchanged");
    report.case(kind, kept, || format!("{call}: {}", step.shown()));
}

/// The textbook product: between two aggregates, the whole number that the entries between them add up to.
fn whole_product(report: &mut Report, step: &Step, ours: &[f64]) {
    let matrix = &step.case.matrix;
    let mut product: BTreeMap<(usize, usize), i64> = BTreeMap::new();
    for row in 0..matrix.nrows() {
        for entry in matrix.row_offsets()[row]..matrix.row_offsets()[row + 1] {
            let column = matrix.column_indices()[entry];
            *product
                .entry((step.map[row], step.map[column]))
                .or_default() += matrix.values()[entry] as i64;
        }
    }
    let agrees = product
        .values()
        .map(|&sum| sum as f64)
        .eq(ours.iter().copied());
    let kind = report.kind("galerkin/whole-product");
    report.case(kind, agrees, || {
        format!("ours {ours:?} due {product:?}, {}", step.shown())
    });
}

fn same_floats(ours: &[f64], theirs: &[f64]) -> bool {
    ours.len() == theirs.len()
        && ours
            .iter()
            .zip(theirs)
            .all(|(&ours, &theirs)| same(ours, theirs))
}
