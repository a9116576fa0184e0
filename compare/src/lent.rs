//! What is lent to a call: a part of something longer, so that a write beside it is seen.

use crate::prng::Prng;

/// The fewest elements that lie before a part and behind it.
const GUARD: usize = 64;
/// Some more lie before, below this, so that a part of bytes may begin at any address.
const SHIFTS: usize = 8;

/// Something drawn for what lies around a part.
pub trait Drawn: Copy {
    fn drawn(prng: &mut Prng) -> Self;
}

impl Drawn for u8 {
    fn drawn(prng: &mut Prng) -> u8 {
        prng.byte()
    }
}

impl Drawn for u32 {
    fn drawn(prng: &mut Prng) -> u32 {
        prng.word()
    }
}

#[derive(Clone, Debug, PartialEq, Eq)]
pub struct Lent<T> {
    all: Vec<T>,
    start: usize,
    end: usize,
}

impl<T: Drawn> Lent<T> {
    /// These elements, with drawn ones around them.
    pub fn new(part: Vec<T>, prng: &mut Prng) -> Lent<T> {
        let start = GUARD + prng.place(SHIFTS);
        let end = start + part.len();
        let mut all: Vec<T> = (0..start).map(|_| T::drawn(prng)).collect();
        all.extend(part);
        all.extend((0..GUARD).map(|_| T::drawn(prng)));
        Lent { all, start, end }
    }

    pub fn part(&self) -> &[T] {
        &self.all[self.start..self.end]
    }

    pub fn part_mut(&mut self) -> &mut [T] {
        &mut self.all[self.start..self.end]
    }

    /// The part and what lies around it.
    pub fn all_mut(&mut self) -> &mut [T] {
        &mut self.all
    }

    pub fn before(&self) -> &[T] {
        &self.all[..self.start]
    }

    pub fn behind(&self) -> &[T] {
        &self.all[self.end..]
    }
}
