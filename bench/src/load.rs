//! A load beside a model of its own that is written to be quick, as the Rust has none. The model keeps the conductances that it draws in a list, and reads
//! those of the faces behind there; its memory, like ours, is lent. It asks nothing of its arguments.

use crate::SEED;
use crate::grid::{Grid, noise};
use crate::measure::Kernel;
use compare::random::Random;
use multigrid::{Refusal, lent};
use std::hint::black_box;

/// The slices of a load.
#[derive(Clone, PartialEq)]
struct Slices {
    offsets: Vec<u32>,
    columns: Vec<u32>,
    values: Vec<f64>,
}

struct Load {
    extents: [u64; 3],
    theirs: Slices,
    conductances: Vec<[u32; 3]>,
    ours: Slices,
    random: Random,
}

/// A square of as many cells as the grid has.
pub fn flat(grid: &Grid) -> Box<dyn Kernel> {
    let side = grid.matrix.nrows().isqrt() as u64;
    Box::new(Load::new([side, side, 1]))
}

/// A box of as many cells, as deep as it is high.
pub fn deep(grid: &Grid) -> Box<dyn Kernel> {
    let cells = grid.matrix.nrows() as u64;
    let deep = (1..).take_while(|deep| deep * deep * deep <= cells);
    let deep = deep.filter(|deep| cells % (deep * deep) == 0).last();
    let deep = deep.expect("one cell deep at least");
    Box::new(Load::new([cells / (deep * deep), deep, deep]))
}

impl Load {
    fn new(extents: [u64; 3]) -> Self {
        let cells = extents.iter().product::<u64>() as usize;
        let slices = Slices {
            offsets: vec![0; cells + 1],
            columns: vec![0; 7 * cells],
            values: vec![0.0; 7 * cells],
        };
        let mut load = Self {
            extents,
            theirs: slices.clone(),
            conductances: vec![[0; 3]; cells],
            ours: slices,
            random: Random::new(1),
        };
        let (ours, theirs) = (load.make().ok(), load.model());
        assert!(
            ours == Some(theirs) && load.ours == load.theirs,
            "the answers differ"
        );
        load
    }

    /// Ours: rows and entries.
    fn make(&mut self) -> Result<(usize, usize), Refusal> {
        let ours = &mut self.ours;
        let (offsets, columns) = (&mut ours.offsets, &mut ours.columns);
        lent::load(SEED, self.extents, offsets, columns, &mut ours.values)
    }

    /// The model's.
    fn model(&mut self) -> (usize, usize) {
        let [width, height, depth] = self.extents.map(|extent| extent as usize);
        let layer = width * height;
        let conductances = &mut self.conductances[..layer * depth];
        let Slices {
            offsets,
            columns,
            values,
        } = &mut self.theirs;
        let (mut state, mut cell, mut end) = (SEED, 0, 0);
        let mut draw = |there: bool| {
            if !there {
                return 0;
            }
            state ^= state << 13;
            state ^= state >> 7;
            state ^= state << 17;
            1 + (state.wrapping_add(SEED) % 1024) as u32
        };
        for z in 0..depth {
            for y in 0..height {
                for x in 0..width {
                    let right = draw(x + 1 < width);
                    let down = draw(y + 1 < height);
                    let deeper = draw(z + 1 < depth);
                    conductances[cell] = [right, down, deeper];
                    let left = if x > 0 { conductances[cell - 1][0] } else { 0 };
                    let up = if y > 0 {
                        conductances[cell - width][1]
                    } else {
                        0
                    };
                    let shallower = if z > 0 {
                        conductances[cell - layer][2]
                    } else {
                        0
                    };
                    let own = 1 + left + up + shallower + right + down + deeper;
                    offsets[cell] = end as u32;
                    let mut put = |there: bool, column: usize, value: f64| {
                        if there {
                            columns[end] = column as u32;
                            values[end] = value;
                            end += 1;
                        }
                    };
                    put(z > 0, cell.wrapping_sub(layer), -f64::from(shallower));
                    put(y > 0, cell.wrapping_sub(width), -f64::from(up));
                    put(x > 0, cell.wrapping_sub(1), -f64::from(left));
                    put(true, cell, f64::from(own));
                    put(x + 1 < width, cell + 1, -f64::from(right));
                    put(y + 1 < height, cell + width, -f64::from(down));
                    put(z + 1 < depth, cell + layer, -f64::from(deeper));
                    cell += 1;
                }
            }
        }
        offsets[cell] = end as u32;
        (cell, end)
    }
}

impl Kernel for Load {
    fn clear(&mut self) {
        noise(&mut self.ours.offsets, &mut self.random);
        noise(&mut self.ours.columns, &mut self.random);
        self.ours.values.fill(f64::NAN);
    }

    fn rust(&mut self) {
        black_box(self.model());
    }

    fn ours(&mut self) {
        black_box(self.make().is_ok());
    }
}
