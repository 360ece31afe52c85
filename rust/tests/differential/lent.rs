//! What is lent to the planner, with guards on both sides that nobody may touch: a buffer, which is dirty, or an input, which
//! has to stay as it is.
use std::hint::black_box;

use crate::random::Random;

const GUARD: usize = 16;

/// What a buffer is made of.
pub trait Cell: Copy + PartialEq {
    fn dirt(random: &mut Random) -> Self;
}

impl Cell for u32 {
    fn dirt(random: &mut Random) -> u32 {
        random.word()
    }
}

impl Cell for u8 {
    fn dirt(random: &mut Random) -> u8 {
        random.word() as u8
    }
}

pub struct Lent<T> {
    cells: Vec<T>,
    before: Vec<T>,
}

impl<T: Cell> Lent<T> {
    pub fn new(random: &mut Random, len: usize) -> Lent<T> {
        Lent::from((0..len + 2 * GUARD).map(|_| T::dirt(random)).collect())
    }

    /// An input of these values.
    pub fn input(random: &mut Random, values: &[T]) -> Lent<T> {
        let mut cells: Vec<T> = (0..GUARD).map(|_| T::dirt(random)).collect();
        cells.extend(values);
        cells.extend((0..GUARD).map(|_| T::dirt(random)));
        Lent::from(cells)
    }

    fn from(cells: Vec<T>) -> Lent<T> {
        Lent { before: cells.clone(), cells }
    }

    pub fn len(&self) -> usize {
        self.cells.len() - 2 * GUARD
    }

    pub fn slice(&mut self) -> &mut [T] {
        let end = self.cells.len() - GUARD;
        &mut self.cells[GUARD..end]
    }

    /// The first places hold `stored`, and everything else is as it was. The compiler may not take a slice that was lent to
    /// be read for unchanged: the cells are looked at anew.
    pub fn holds(&self, stored: &[T]) -> bool {
        let cells = black_box(&self.cells);
        let end = GUARD + stored.len();
        end <= cells.len() - GUARD
            && cells[..GUARD] == self.before[..GUARD]
            && cells[GUARD..end] == *stored
            && cells[end..] == self.before[end..]
    }

    /// Everything is as it was.
    pub fn kept(&self) -> bool {
        self.holds(&[])
    }
}
