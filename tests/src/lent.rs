//! Memory that is lent to a call, with guards on both sides.

use crate::random::Random;

const GUARD: usize = 16;

/// A part of memory between guards. All of it, guards included, is compared after a call.
#[derive(Clone, Debug, PartialEq, Eq)]
pub struct Lent<T> {
    cells: Vec<T>,
}

/// What memory may be made of.
pub trait Cell: Copy {
    /// Any value.
    fn random(random: &mut Random) -> Self;
}

impl Cell for u8 {
    fn random(random: &mut Random) -> u8 {
        random.any() as u8
    }
}

impl Cell for u32 {
    fn random(random: &mut Random) -> u32 {
        random.any() as u32
    }
}

impl Cell for u64 {
    fn random(random: &mut Random) -> u64 {
        random.any()
    }
}

impl<T: Cell> Lent<T> {
    /// So many cells of any values, between guards of any values.
    pub fn random(random: &mut Random, length: usize) -> Lent<T> {
        Lent { cells: (0..length + 2 * GUARD).map(|_| T::random(random)).collect() }
    }

    /// A copy of these cells, between guards of any values.
    pub fn holding(random: &mut Random, cells: &[T]) -> Lent<T> {
        let mut lent = Lent::random(random, 0);
        lent.cells.splice(GUARD..GUARD, cells.iter().copied());
        lent
    }

    /// The part that is lent.
    pub fn part(&self) -> &[T] {
        &self.cells[GUARD..self.cells.len() - GUARD]
    }

    /// The part that is lent, to be written to.
    pub fn part_mut(&mut self) -> &mut [T] {
        let end = self.cells.len() - GUARD;
        &mut self.cells[GUARD..end]
    }
}
