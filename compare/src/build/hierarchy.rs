//! A hierarchy as the definitions have it (`Level` and `Hierarchy` of crates/hierarchy), and as it stands in the stores
//! (crates/layout). The values of a level are no part of the definition's: a build leaves them in the stores all the same.

use super::problem::Stores;
use crate::report::{hex, same};
use multigrid::MultigridLevelStatistics;

/// One level: the words of its shape, then its numbers, in the order of the stores.
#[derive(Clone, Default)]
pub struct Level {
    pub last: bool,
    pub offsets: Vec<u32>,
    pub columns: Vec<u32>,
    pub starts: Vec<u32>,
    pub diagonals: Vec<u32>,
    pub neighbors: Vec<u32>,
    pub uppers: Vec<u32>,
    pub lowers: Vec<u32>,
    /// The aggregate of each row; on the last level the coupled rows.
    pub links: Vec<u32>,
    pub positions: Vec<u32>,
    pub values: Vec<f64>,
    pub coefficients: Vec<f64>,
    pub diagonal: Vec<f64>,
    pub inverse: Vec<f64>,
    pub dic: Vec<f64>,
    pub factor: Vec<f64>,
}

#[derive(Clone, Default)]
pub struct Hierarchy {
    pub levels: Vec<Level>,
    pub sums: Vec<f64>,
}

/// How many words a packed triangle of `n` rows has.
fn triangle(n: usize) -> usize {
    n * (n + 1) / 2
}

impl Level {
    pub fn rows(&self) -> usize {
        self.offsets.len() - 1
    }

    pub fn words(&self) -> [(&'static str, &[u32]); 9] {
        [
            ("offsets", &self.offsets),
            ("columns", &self.columns),
            ("starts", &self.starts),
            ("diagonals", &self.diagonals),
            ("neighbors", &self.neighbors),
            ("uppers", &self.uppers),
            ("lowers", &self.lowers),
            ("links", &self.links),
            ("positions", &self.positions),
        ]
    }

    pub fn floats(&self) -> [(&'static str, &[f64]); 6] {
        [
            ("values", &self.values),
            ("coefficients", &self.coefficients),
            ("diagonal", &self.diagonal),
            ("inverse", &self.inverse),
            ("dic", &self.dic),
            ("factor", &self.factor),
        ]
    }

    /// Rows, 1 on the last level, and its coupled rows: what stands before the offsets.
    pub fn head(&self) -> [u32; 3] {
        let coupled = if self.last { self.links.len() } else { 0 };
        [self.rows() as u32, u32::from(self.last), coupled as u32]
    }

    /// The level that begins at the cursors, which move on to its end; None where it passes the end of a store.
    fn read(words: &mut Cursor<u32>, floats: &mut Cursor<f64>) -> Option<Self> {
        let head = words.take(3)?;
        let (rows, last, coupled) = (head[0] as usize, head[1] == 1, head[2] as usize);
        let offsets = words.take(rows.checked_add(1)?)?;
        let entries = offsets[rows] as usize;
        let columns = words.take(entries)?;
        let starts = words.take(rows + 1)?;
        let faces = starts[rows] as usize;
        let coupled = if last { coupled } else { 0 };
        Some(Self {
            last,
            offsets,
            columns,
            starts,
            diagonals: words.take(rows)?,
            neighbors: words.take(faces)?,
            uppers: words.take(faces)?,
            lowers: words.take(faces)?,
            links: words.take(if last { coupled } else { rows })?,
            positions: words.take(if last { 0 } else { entries })?,
            values: floats.take(entries)?,
            coefficients: floats.take(faces)?,
            diagonal: floats.take(rows)?,
            inverse: floats.take(rows)?,
            dic: floats.take(rows)?,
            factor: floats.take(triangle(coupled))?,
        })
    }

    /// What differs first, with both sides.
    fn difference(&self, theirs: &Self) -> Option<String> {
        if self.last != theirs.last {
            return Some(format!("last {} beside {}", self.last, theirs.last));
        }
        let words = self.words().into_iter().zip(theirs.words());
        let floats = self.floats().into_iter().zip(theirs.floats());
        words
            .filter_map(|((name, ours), (_, theirs))| {
                differing(name, ours, theirs, |a, b| a == b, u32::to_string)
            })
            .chain(floats.filter_map(|((name, ours), (_, theirs))| {
                differing(name, ours, theirs, |&a, &b| same(a, b), |&x| hex(x))
            }))
            .next()
    }
}

impl Hierarchy {
    /// `view_of` of crates/layout: so many levels, and the row sums of the finest after them.
    pub fn read(levels: usize, stores: &Stores) -> Option<Self> {
        let mut words = Cursor(&stores.words);
        let mut floats = Cursor(&stores.floats);
        let levels: Option<Vec<Level>> = (0..levels)
            .map(|_| Level::read(&mut words, &mut floats))
            .collect();
        let levels = levels?;
        let sums = floats.take(levels.first().map_or(0, Level::rows))?;
        Some(Self { levels, sums })
    }

    /// How many floats it takes.
    pub fn floats(&self) -> usize {
        let levels = self.levels.iter().flat_map(Level::floats);
        levels.map(|(_, floats)| floats.len()).sum::<usize>() + self.sums.len()
    }

    /// What differs first; numbers bit for bit.
    pub fn difference(&self, theirs: &Self) -> Option<String> {
        if self.levels.len() != theirs.levels.len() {
            let (ours, theirs) = (self.levels.len(), theirs.levels.len());
            return Some(format!("{ours} levels beside {theirs}"));
        }
        let levels = self.levels.iter().zip(&theirs.levels).enumerate();
        let level = levels
            .filter_map(|(level, (ours, theirs))| {
                Some(format!("level {level}: {}", ours.difference(theirs)?))
            })
            .next();
        level.or_else(|| {
            differing(
                "sums",
                &self.sums,
                &theirs.sums,
                |&a, &b| same(a, b),
                |&x| hex(x),
            )
        })
    }

    /// The statistics of a build: the rows of each level with counters of zero, and zeros past the last level.
    pub fn statistics(&self, records: usize) -> Vec<MultigridLevelStatistics> {
        let mut statistics = vec![MultigridLevelStatistics::default(); records];
        for (record, level) in statistics.iter_mut().zip(&self.levels) {
            record.cells = level.rows() as u64;
        }
        statistics
    }

    /// Over all words of the view, the heads of the levels included, and then the bits of its floats: the sum of the sums
    /// so far, modulo 2^64, which tells numbers that have changed places apart.
    pub fn checksum(&self) -> u64 {
        let words = self.levels.iter().flat_map(|level| {
            let lists = level.words().into_iter().flat_map(|(_, words)| words);
            level
                .head()
                .into_iter()
                .chain(lists.copied())
                .map(u64::from)
        });
        let floats = self.levels.iter().flat_map(Level::floats);
        let floats = floats.flat_map(|(_, floats)| floats).chain(&self.sums);
        super::list::rising(words.chain(floats.map(|float| float.to_bits())))
    }
}

/// Where reading stands: the words that are left.
struct Cursor<'a, T>(&'a [T]);

impl<T: Copy> Cursor<'_, T> {
    fn take(&mut self, n: usize) -> Option<Vec<T>> {
        let (taken, left) = self.0.split_at_checked(n)?;
        self.0 = left;
        Some(taken.to_vec())
    }
}

fn differing<T>(
    name: &str,
    ours: &[T],
    theirs: &[T],
    same: impl Fn(&T, &T) -> bool,
    shown: impl Fn(&T) -> String,
) -> Option<String> {
    if ours.len() != theirs.len() {
        let (ours, theirs) = (ours.len(), theirs.len());
        return Some(format!("{ours} {name} beside {theirs}"));
    }
    let mut pairs = ours.iter().zip(theirs);
    let at = pairs.position(|(ours, theirs)| !same(ours, theirs))?;
    let (ours, theirs) = (shown(&ours[at]), shown(&theirs[at]));
    Some(format!("{name} {at}: {ours} beside {theirs}"))
}
