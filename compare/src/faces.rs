//! `faces` beside `SymmetricMatrix::new` of matrix.rs, on patterns that are symmetric and on such as lack an entry. Where the
//! Rust refuses a pattern it shows no faces: then a plain search for them stands beside ours. Where it shows them, the search
//! finds the same.

use crate::Effort;
use crate::boundary::kernels::Refused;
use crate::boundary::topology::Topology;
use crate::matrices::container;
use crate::numbers;
use crate::pattern::{Pattern, Shape, mirrors};
use crate::random::Random;
use crate::report::Report;
use crate::stores::{Layout, Store, narrow, same_numbers};
use oracle::LinearAlgebraError;
use oracle::parts::Kernel;

const LEVEL: u64 = 4;

/// How many rows a pattern has at most that an example shows.
const SHOWN: usize = 8;

/// Which entries are taken away.
type Damage = fn(&Pattern, &mut Random) -> Vec<usize>;

const DAMAGES: [(&str, Damage); 6] = [
    ("no-upper", |pattern, random| {
        Vec::from_iter(a_face(pattern, random).map(|face| face.0))
    }),
    ("no-lower", |pattern, random| {
        Vec::from_iter(a_face(pattern, random).map(|face| face.1))
    }),
    ("no-diagonal", |pattern, random| {
        vec![random.pick(&pattern.diagonals())]
    }),
    ("no-diagonals", |pattern, random| {
        let own = pattern.diagonals().into_iter();
        own.filter(|_| random.below(4) == 0).collect()
    }),
    ("no-lower-no-diagonal", |pattern, random| {
        let face = a_face(pattern, random).map(|face| face.1);
        let own = random.pick(&pattern.diagonals());
        face.into_iter().chain([own]).collect()
    }),
    ("any-missing", |pattern, random| {
        let of = random.pick(&[2, 10, 100]);
        let entries = 0..pattern.entries();
        entries.filter(|_| random.below(of) == 0).collect()
    }),
];

pub fn compare(report: &mut Report, random: &mut Random, effort: Effort) {
    for turn in 0..effort.times(4_000, 120_000) {
        let (name, shape) = Shape::ALL[turn as usize % Shape::ALL.len()];
        let rows = numbers::rows(random);
        let pattern = shape.full(random, rows);
        one_pattern(report, random, name, &pattern);
        let (name, damage) = random.pick(&DAMAGES);
        let gone = damage(&pattern, random);
        one_pattern(report, random, name, &without(&pattern, &gone));
    }
}

/// A face's two entries, if there is a face.
fn a_face(pattern: &Pattern, random: &mut Random) -> Option<(usize, usize)> {
    let faces = mirrors(&pattern.offsets, &pattern.columns);
    (!faces.is_empty()).then(|| random.pick(&faces))
}

fn without(pattern: &Pattern, gone: &[usize]) -> Pattern {
    let entries = 0..pattern.entries();
    let kept: Vec<usize> = entries.filter(|entry| !gone.contains(entry)).collect();
    Pattern {
        offsets: pattern.rows_of(kept.iter().copied()),
        columns: kept.iter().map(|&entry| pattern.columns[entry]).collect(),
    }
}

/// What ours must find: no mirrors where one is missing; of missing diagonal entries the first row.
#[derive(PartialEq, Debug)]
struct Due {
    offsets: Vec<usize>,
    neighbors: Vec<usize>,
    uppers: Vec<usize>,
    lowers: Option<Vec<usize>>,
    diagonals: Result<Vec<usize>, Refused>,
    coupled_count: usize,
    coupled_rows: Vec<usize>,
}

impl Due {
    /// As the Rust has it.
    fn of_kernel(kernel: &Kernel, pattern: &Pattern) -> Self {
        let [diagonals, uppers, lowers] = kernel.entries().map(<[usize]>::to_vec);
        let neighbors = kernel.neighbors().iter().map(|&column| column as usize);
        Self {
            offsets: kernel.offsets().to_vec(),
            neighbors: neighbors.collect(),
            uppers,
            lowers: Some(lowers),
            diagonals: Ok(diagonals),
            coupled_count: kernel.coupled_rows(),
            coupled_rows: coupled_rows(pattern),
        }
    }

    /// By search.
    fn of_pattern(pattern: &Pattern) -> Self {
        let Pattern { offsets, columns } = pattern;
        let row_of = |entry: usize| offsets.partition_point(|&start| start <= entry) - 1;
        let find = |row: usize, column: usize| {
            (offsets[row]..offsets[row + 1]).find(|&entry| columns[entry] == column)
        };
        let mirror = |entry: usize| find(columns[entry], row_of(entry));
        let entries = 0..columns.len();
        let above = |&entry: &usize| columns[entry] > row_of(entry);
        let uppers: Vec<usize> = entries.clone().filter(above).collect();
        let mirrored = entries.clone().all(|entry| mirror(entry).is_some());
        let missing = |row: usize| (11, LEVEL, row as u64);
        let own = (0..pattern.rows()).map(|row| find(row, row).ok_or(missing(row)));
        let coupled = coupled_rows(pattern);
        Self {
            offsets: pattern.rows_of(uppers.iter().copied()),
            neighbors: uppers.iter().map(|&entry| columns[entry]).collect(),
            lowers: mirrored.then(|| uppers.iter().filter_map(|&entry| mirror(entry)).collect()),
            diagonals: own.collect(),
            coupled_count: coupled.len(),
            coupled_rows: coupled,
            uppers,
        }
    }

    /// The first question that refuses; 10 names no place.
    fn refused(&self) -> Result<(), Refused> {
        match &self.lowers {
            None => Err((10, 0, 0)),
            Some(_) => self.diagonals.clone().map(drop),
        }
    }
}

/// coarse.rs:28-34
fn coupled_rows(pattern: &Pattern) -> Vec<usize> {
    (0..pattern.rows())
        .filter(|&row| {
            pattern.columns[pattern.offsets[row]..pattern.offsets[row + 1]]
                .iter()
                .any(|&column| column != row)
        })
        .collect()
}

fn one_pattern(report: &mut Report, random: &mut Random, name: &str, pattern: &Pattern) {
    let searched = Due::of_pattern(pattern);
    let theirs = Kernel::new(&container(pattern, vec![1.0; pattern.entries()]));
    let answer = match &theirs {
        Ok(_) => Ok(()),
        Err(LinearAlgebraError::Breakdown { .. }) => Err((10, 0, 0)),
        Err(LinearAlgebraError::MissingDiagonal { row }) => Err((11, LEVEL, *row as u64)),
        Err(error) => panic!("the Rust answers {error:?}"),
    };
    let mut case = Case {
        report,
        name,
        pattern,
    };
    case.told("new", answer);
    let due = match &theirs {
        Ok(kernel) => {
            let due = Due::of_kernel(kernel, pattern);
            case.agrees("search", due == searched, || format!("{searched:?}"));
            due
        }
        Err(_) => searched,
    };
    let (at, to, mut store) = places(random, pattern, due.uppers.len());
    faces(&mut case, &at, &mut store, &due);
    let ours = questions(&mut case, &at, &mut store, &due);
    case.agrees(
        "first-refusal",
        ours == answer && due.refused() == answer,
        || format!("ours {ours:?} theirs {answer:?}"),
    );
    if due.diagonals.is_ok() {
        coupled(&mut case, &at, to, &mut store, &due);
    }
}

/// The pattern, and above it the regions that are written, in any order; last where the coupled rows go.
fn places(random: &mut Random, pattern: &Pattern, faces: usize) -> (Topology, usize, Store<u32>) {
    let (rows, entries) = (pattern.rows(), pattern.entries());
    let mut layout = Layout::default();
    let [offsets, columns] = layout.place_any_order(random, [rows + 1, entries]);
    let starts = layout.place(random, rows + 1);
    // Entries of faces stand above their columns.
    let apart = faces + random.index(3);
    let sizes = [rows, apart + faces, faces, rows];
    let [diagonals, neighbors, lowers, to] = layout.place_any_order(random, sizes);
    let mut store = layout.store(random);
    store.put(offsets, narrow(&pattern.offsets));
    store.put(columns, narrow(&pattern.columns));
    let at = Topology {
        rows,
        entries,
        faces,
        offsets,
        columns,
        starts,
        diagonals,
        neighbors,
        uppers: neighbors + apart,
        lowers,
    };
    (at, to, store)
}

/// Offsets, columns and entries of the faces.
fn faces(case: &mut Case, at: &Topology, store: &mut Store<u32>, due: &Due) {
    let (count, kept) = store.call(&[(at.starts, at.rows + 1)], |w| at.face_offsets(w));
    let ours = store.at(at.starts, at.rows + 1);
    let agrees = count == due.uppers.len() && same_numbers(ours, &due.offsets);
    case.agrees("face_offsets", agrees, || format!("ours {count} {ours:?}"));
    case.outside("face_offsets", kept);

    let written = [(at.neighbors, at.faces), (at.uppers, at.faces)];
    let ((), kept) = store.call(&written, |w| at.fill_faces(w));
    let [neighbors, uppers] = written.map(|(start, n)| store.at(start, n));
    let agrees = same_numbers(neighbors, &due.neighbors) && same_numbers(uppers, &due.uppers);
    case.agrees("fill_faces", agrees, || {
        format!("ours {neighbors:?} {uppers:?}")
    });
    case.outside("fill_faces", kept);
}

/// Questions 10 and 11, each asked of every pattern; the first that refuses.
fn questions(
    case: &mut Case,
    at: &Topology,
    store: &mut Store<u32>,
    due: &Due,
) -> Result<(), Refused> {
    let (mirrored, kept) = store.call(&[(at.lowers, at.faces)], |w| at.mirrors(w));
    let lowers = store.at(at.lowers, at.faces);
    let agrees = match &due.lowers {
        Some(due) => mirrored && same_numbers(lowers, due),
        None => !mirrored,
    };
    case.agrees("mirrors", agrees, || format!("ours {mirrored} {lowers:?}"));
    case.outside("mirrors", kept);
    let asked = if mirrored { Ok(()) } else { Err((10, 0, 0)) };
    case.told("mirrors", asked);

    let (ours, kept) = store.call(&[(at.diagonals, at.rows)], |w| at.diagonals(w, LEVEL));
    let diagonals = store.at(at.diagonals, at.rows);
    let agrees = match &due.diagonals {
        Ok(due) => ours.is_ok() && same_numbers(diagonals, due),
        Err(refused) => ours == Err(*refused),
    };
    case.agrees("diagonals", agrees, || {
        format!("ours {ours:?} {diagonals:?}")
    });
    case.outside("diagonals", kept);
    case.told("diagonals", ours);
    asked.and(ours)
}

fn coupled(case: &mut Case, at: &Topology, to: usize, store: &mut Store<u32>, due: &Due) {
    let (count, kept) = store.call(&[], |w| at.coupled_count(w));
    case.agrees("coupled_count", count == due.coupled_count, || {
        format!("ours {count} due {}", due.coupled_count)
    });
    case.outside("coupled_count", kept);

    let written = due.coupled_rows.len();
    let ((), kept) = store.call(&[(to, written)], |w| at.coupled_rows(w, to));
    let ours = store.at(to, written);
    case.agrees(
        "coupled_rows",
        same_numbers(ours, &due.coupled_rows),
        || format!("ours {ours:?}"),
    );
    case.outside("coupled_rows", kept);
    let how_many = match written {
        0 => "none",
        count if count == at.rows => "all",
        _ => "some",
    };
    case.report
        .answer(&format!("faces/coupled_rows/{how_many}"));
}

/// A pattern of a shape or with a damage, and where its calls are counted.
struct Case<'a> {
    report: &'a mut Report,
    name: &'a str,
    pattern: &'a Pattern,
}

impl Case<'_> {
    fn agrees(&mut self, call: &str, agrees: bool, ours: impl FnOnce() -> String) {
        let kind = self.report.kind(&format!("faces/{call}/{}", self.name));
        let Pattern { offsets, columns } = self.pattern;
        self.report.case(kind, agrees, || {
            if self.pattern.rows() > SHOWN {
                return format!("{} rows, {} entries", self.pattern.rows(), columns.len());
            }
            format!("{} of offsets {offsets:?} columns {columns:?}", ours())
        });
    }

    fn outside(&mut self, call: &str, kept: bool) {
        let kind = self.report.kind("faces/outside-unchanged");
        self.report.case(kind, kept, || call.to_string());
    }

    fn told(&mut self, call: &str, answer: Result<(), Refused>) {
        self.report.answer(&match answer {
            Ok(()) => format!("faces/{call}/passed"),
            Err((number, ..)) => format!("faces/{call}/refused-{number}"),
        });
    }
}
