//! Symmetric patterns in compressed rows, and maps of their rows.

use crate::random::Random;

/// The greatest side of a grid, and the greatest number of rows of the other shapes.
const SIDE: usize = 22;
const ROWS: usize = 500;
const DENSE_ROWS: usize = 24;

pub struct Pattern {
    pub offsets: Vec<usize>,
    pub columns: Vec<usize>,
}

#[derive(Clone, Copy)]
pub enum Shape {
    Path,
    Grid,
    Random,
    Disconnected,
    Star,
    Dense,
}

impl Shape {
    pub const ALL: [(&str, Self); 6] = [
        ("path", Self::Path),
        ("grid", Self::Grid),
        ("random", Self::Random),
        ("disconnected", Self::Disconnected),
        ("star", Self::Star),
        ("dense", Self::Dense),
    ];

    /// A pattern of this shape: its rows in any order, and at times some of them without a diagonal entry.
    pub fn draw(self, random: &mut Random) -> Pattern {
        let most = random.pick(&[4, 20, 100, ROWS]);
        let rows = match self {
            Self::Dense => 1 + random.index(DENSE_ROWS),
            _ => 1 + random.index(most),
        };
        let (rows, mut faces) = self.faces(random, rows);
        if random.below(2) == 0 {
            let order = shuffled(random, rows);
            for face in &mut faces {
                *face = (order[face.0], order[face.1]);
            }
        }
        let bare = random.below(4) == 0;
        let diagonal: Vec<bool> = (0..rows).map(|_| !bare || random.below(2) == 0).collect();
        Pattern::of_faces(&diagonal, &faces)
    }

    /// A pattern of about as many rows, all with a diagonal entry.
    pub fn full(self, random: &mut Random, rows: usize) -> Pattern {
        let (rows, faces) = match self {
            Self::Grid => grid_faces(1 + random.index(rows.isqrt()), rows.isqrt()),
            Self::Dense => self.faces(random, rows.min(DENSE_ROWS)),
            _ => self.faces(random, rows),
        };
        Pattern::of_faces(&vec![true; rows], &faces)
    }

    /// The faces, and the number of rows, which is not the one asked for if the shape has its own.
    fn faces(self, random: &mut Random, rows: usize) -> (usize, Vec<(usize, usize)>) {
        let pairs = |random: &mut Random, count: usize| {
            let ends = (0..count).map(|_| (random.index(rows), random.index(rows)));
            ends.filter(|(one, other)| one != other).collect()
        };
        let faces = match self {
            Self::Path => (1..rows).map(|row| (row - 1, row)).collect(),
            Self::Grid => return grid_faces(1 + random.index(SIDE), 1 + random.index(SIDE)),
            Self::Random => {
                let count = random.index(4 * rows);
                pairs(random, count)
            }
            Self::Disconnected => {
                let count = random.index(1 + rows / 4);
                pairs(random, count)
            }
            Self::Star => (1..rows).map(|row| (0, row)).collect(),
            Self::Dense => (0..rows)
                .flat_map(|row| (0..row).map(move |column| (row, column)))
                .collect(),
        };
        (rows, faces)
    }
}

/// Five points: each cell of a grid and its neighbours along both axes.
fn grid_faces(wide: usize, high: usize) -> (usize, Vec<(usize, usize)>) {
    let mut faces = Vec::new();
    for row in 0..wide * high {
        if (row + 1) % wide != 0 {
            faces.push((row, row + 1));
        }
        if row + wide < wide * high {
            faces.push((row, row + wide));
        }
    }
    (wide * high, faces)
}

impl Pattern {
    /// The five-point grid of `side` cells squared.
    pub fn grid(side: usize) -> Self {
        Self::rectangle(side, side)
    }

    /// The five-point grid of so many cells along each axis.
    pub fn rectangle(wide: usize, high: usize) -> Self {
        let (rows, faces) = grid_faces(wide, high);
        Self::of_faces(&vec![true; rows], &faces)
    }

    /// Both entries of each face, which may be named more than once, and the diagonal entries of some rows.
    pub fn of_faces(diagonal: &[bool], faces: &[(usize, usize)]) -> Self {
        let mirrored = faces
            .iter()
            .flat_map(|&(row, column)| [(row, column), (column, row)]);
        let own = (0..diagonal.len()).filter(|&row| diagonal[row]);
        let mut entries: Vec<_> = mirrored.chain(own.map(|row| (row, row))).collect();
        entries.sort_unstable();
        entries.dedup();
        let mut offsets = vec![0; diagonal.len() + 1];
        for &(row, _) in &entries {
            offsets[row + 1] += 1;
        }
        for row in 0..diagonal.len() {
            offsets[row + 1] += offsets[row];
        }
        let columns = entries.into_iter().map(|entry| entry.1).collect();
        Self { offsets, columns }
    }

    pub fn rows(&self) -> usize {
        self.offsets.len() - 1
    }

    /// The same with its rows in any order. All of them have a diagonal entry.
    pub fn reordered(&self, random: &mut Random) -> Self {
        let order = shuffled(random, self.rows());
        let rows = self.offsets.windows(2).enumerate();
        let faces: Vec<(usize, usize)> = rows
            .flat_map(|(row, ends)| {
                self.columns[ends[0]..ends[1]]
                    .iter()
                    .map(move |&column| (row, column))
            })
            .filter(|(row, column)| row != column)
            .map(|(row, column)| (order[row], order[column]))
            .collect();
        Self::of_faces(&vec![true; self.rows()], &faces)
    }

    /// The entry of each row's diagonal, of those that have one.
    pub fn diagonals(&self) -> Vec<usize> {
        let rows = self.offsets.windows(2).enumerate();
        let own = |(row, ends): (usize, &[usize])| {
            (ends[0]..ends[1]).find(|&entry| self.columns[entry] == row)
        };
        rows.filter_map(own).collect()
    }

    /// The offsets of some entries, in order, by their rows.
    pub fn rows_of(&self, entries: impl Iterator<Item = usize>) -> Vec<usize> {
        let entries: Vec<usize> = entries.collect();
        let below = |&end: &usize| entries.partition_point(|&entry| entry < end);
        self.offsets.iter().map(below).collect()
    }

    pub fn entries(&self) -> usize {
        self.columns.len()
    }

    /// A number for each entry; where `symmetric`, the same for mirrored ones.
    pub fn numbers(&self, symmetric: bool, mut draw: impl FnMut() -> f64) -> Vec<f64> {
        let mut numbers: Vec<f64> = self.columns.iter().map(|_| draw()).collect();
        if symmetric {
            for (upper, lower) in mirrors(&self.offsets, &self.columns) {
                numbers[lower] = numbers[upper];
            }
        }
        numbers
    }
}

/// The entries above the diagonal in row order, each with its mirror. As columns rise, a row's entries below the
/// diagonal are the mirrors of the rows above it in turn.
pub fn mirrors(offsets: &[usize], columns: &[usize]) -> Vec<(usize, usize)> {
    let mut next = offsets.to_vec();
    let mut found = Vec::with_capacity(columns.len() / 2);
    for (row, ends) in offsets.windows(2).enumerate() {
        for (entry, &column) in (ends[0]..).zip(&columns[ends[0]..ends[1]]) {
            if column > row {
                found.push((entry, next[column]));
                next[column] += 1;
            }
        }
    }
    found
}

/// An aggregate for each row, each number below the count used, and the count.
pub fn random_map(random: &mut Random, rows: usize) -> (Vec<usize>, usize) {
    let most = random.pick(&[1, rows.div_ceil(4), rows]);
    let count = 1 + random.index(most);
    let mut map = vec![0; rows];
    for (turn, row) in shuffled(random, rows).into_iter().enumerate() {
        map[row] = if turn < count {
            turn
        } else {
            random.index(count)
        };
    }
    (map, count)
}

fn shuffled(random: &mut Random, rows: usize) -> Vec<usize> {
    let mut order: Vec<usize> = (0..rows).collect();
    for last in (1..rows).rev() {
        order.swap(last, random.index(last + 1));
    }
    order
}
