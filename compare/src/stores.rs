//! Stores full of noise with regions in them, and whether a call wrote nowhere else.

use crate::random::Random;
use crate::report::same;

/// How many words at most lie between two regions.
const MARGIN: usize = 4;

pub trait Word: Copy {
    fn noise(random: &mut Random) -> Self;
    fn bits(self) -> u64;
}

impl Word for u32 {
    /// Of any size, so that it may also look like a row.
    fn noise(random: &mut Random) -> Self {
        (random.bits() >> 32) as u32 >> random.below(32)
    }

    fn bits(self) -> u64 {
        u64::from(self)
    }
}

impl Word for f64 {
    fn noise(random: &mut Random) -> Self {
        random.pattern()
    }

    fn bits(self) -> u64 {
        self.to_bits()
    }
}

/// Lays regions out, one above the other.
#[derive(Default)]
pub struct Layout {
    end: usize,
}

impl Layout {
    /// Where the next `n` words stand.
    pub fn place(&mut self, random: &mut Random, n: usize) -> usize {
        let start = self.end + random.index(MARGIN);
        self.end = start + n;
        start
    }

    /// The same for several regions, in any order.
    pub fn place_any_order<const N: usize>(
        &mut self,
        random: &mut Random,
        sizes: [usize; N],
    ) -> [usize; N] {
        let mut starts = [0; N];
        let first = random.index(N);
        for turn in 0..N {
            let region = (first + turn) % N;
            starts[region] = self.place(random, sizes[region]);
        }
        starts
    }

    /// A store that holds them all, and a little more.
    pub fn store<T: Word>(&self, random: &mut Random) -> Store<T> {
        let length = self.end + random.index(MARGIN);
        Store {
            words: (0..length).map(|_| T::noise(random)).collect(),
        }
    }
}

pub struct Store<T> {
    pub words: Vec<T>,
}

impl<T: Word> Store<T> {
    pub fn put(&mut self, start: usize, words: impl IntoIterator<Item = T>) {
        for (place, word) in self.words[start..].iter_mut().zip(words) {
            *place = word;
        }
    }

    pub fn at(&self, start: usize, n: usize) -> &[T] {
        &self.words[start..start + n]
    }

    /// Runs `call`; whether all words outside what it may write, regions of (start, length) upward, are as they were.
    pub fn call<A>(
        &mut self,
        written: &[(usize, usize)],
        call: impl FnOnce(&mut [T]) -> A,
    ) -> (A, bool) {
        let before = self.words.clone();
        let answer = call(&mut self.words);
        let mut checked = 0;
        for &(start, length) in written.iter().chain([&(before.len(), 0)]) {
            if !same_bits(&before[checked..start], &self.words[checked..start]) {
                return (answer, false);
            }
            checked = start + length;
        }
        (answer, true)
    }
}

fn same_bits<T: Word>(left: &[T], right: &[T]) -> bool {
    let mut pairs = left.iter().zip(right);
    pairs.all(|(left, right)| left.bits() == right.bits())
}

/// Words for a store: the container's numbers are wider.
pub fn narrow(numbers: &[usize]) -> impl Iterator<Item = u32> {
    numbers.iter().map(|&number| number as u32)
}

pub fn same_numbers(ours: &[u32], theirs: &[usize]) -> bool {
    ours.len() == theirs.len() && narrow(theirs).eq(ours.iter().copied())
}

/// Bit for bit, but for NaNs.
pub fn same_floats(ours: &[f64], theirs: &[f64]) -> bool {
    let mut pairs = ours.iter().zip(theirs);
    ours.len() == theirs.len() && pairs.all(|(&ours, &theirs)| same(ours, theirs))
}
