//! Cells that are lent to a call, and what they hold before it.

use racejudge_bench::ffi::Record;
use racejudge_bench::rng::Rng;
use racejudge_bench::trace::{MAX_EVENTS, TASKS, WORKSPACE};
use std::borrow::Cow;
use std::fmt::Debug;

/// Cells on either side of each lent slice that must stay as they are.
const GUARD: usize = 16;

/// What lent slices are made of, each cell of so many numbers of the dirt.
pub trait Cell: Copy + Debug + PartialEq {
    const NUMBERS: usize;
    fn of(numbers: &[u16]) -> Self;
}

impl Cell for u16 {
    const NUMBERS: usize = 1;
    fn of(numbers: &[u16]) -> Self {
        numbers[0]
    }
}

/// The low byte.
impl Cell for u8 {
    const NUMBERS: usize = 1;
    fn of(numbers: &[u16]) -> Self {
        numbers[0] as u8
    }
}

impl Cell for Record {
    const NUMBERS: usize = 5;
    fn of(numbers: &[u16]) -> Self {
        let [reads, writes, sums, first, last] = *numbers else { panic!("five numbers") };
        Record { reads, writes, sums, first, last }
    }
}

/// Cells with any content, of which those between the guards are lent.
pub struct Buffer<T> {
    cells: Vec<T>,
    before: Vec<T>,
}

impl<T: Cell> Buffer<T> {
    /// So many cells to lend, with a part of the dirt, or all of it again and again.
    pub fn drawn(dirt: &[u16], rng: &mut Rng, lent: usize) -> Self {
        let whole = (lent + 2 * GUARD) * T::NUMBERS;
        let dirt = match whole.div_ceil(dirt.len()) {
            1 => Cow::from(dirt),
            times => Cow::from(dirt.repeat(times)),
        };
        let from = rng.below(dirt.len() - whole + 1);
        let numbers = dirt[from..from + whole].chunks_exact(T::NUMBERS);
        let before: Vec<T> = numbers.map(T::of).collect();
        Buffer { cells: before.clone(), before }
    }

    /// These cells to lend, with a part of the dirt around them.
    pub fn holding(dirt: &[u16], rng: &mut Rng, cells: &[T]) -> Self {
        let mut buffer = Buffer::drawn(dirt, rng, cells.len());
        buffer.lend().copy_from_slice(cells);
        Buffer { before: buffer.cells.clone(), ..buffer }
    }

    /// All cells, with those around the lent ones.
    pub fn all(&mut self) -> &mut [T] {
        &mut self.cells
    }

    pub fn lend(&mut self) -> &mut [T] {
        let end = self.cells.len() - GUARD;
        &mut self.cells[GUARD..end]
    }

    /// The first cell that is wrong: the lent ones must begin with `start`, all others be as they
    /// were.
    pub fn difference(&self, start: &[T]) -> Option<String> {
        let (cells, before) = (&self.cells, &self.before);
        let (from, to) = (GUARD, GUARD + start.len());
        if cells[from..to] == *start
            && cells[..from] == before[..from]
            && cells[to..] == before[to..]
        {
            return None;
        }
        let wanted = [&before[..from], start, &before[to..]].concat();
        let at = (0..wanted.len()).find(|&at| cells[at] != wanted[at])?;
        let place = at as isize - GUARD as isize;
        Some(format!("cell {place} is {:?}, wanted {:?}", cells[at], wanted[at]))
    }
}

/// What buffers hold before a call: zeros, ones in every bit, what looks like tasks, anything.
pub fn dirt(rng: &mut Rng) -> Vec<u16> {
    let length = WORKSPACE + MAX_EVENTS + 2 * GUARD;
    let mut cells = vec![0; length];
    cells.resize(2 * length, u16::MAX);
    cells.extend((0..length).map(|_| rng.cell(TASKS)));
    cells.extend((0..2 * length).map(|_| rng.cell(65_536)));
    cells
}
