//! What is lent to a call, with guards beside it and stale words in it.

use std::fmt::Debug;

pub const STALE: u32 = 0xA5A5_A5A5;
pub const STALE_BYTE: u8 = 0xA5;
pub const STALE_SIZE: usize = usize::MAX;

/// Elements on each side of what is lent.
const GUARD: usize = 64;

/// Elements to lend, between others.
pub struct Guarded<T> {
    elements: Vec<T>,
    filler: T,
}

impl<T: Copy + PartialEq + Debug> Guarded<T> {
    /// All elements, lent or not, are the filler.
    pub fn new(size: usize, filler: T) -> Guarded<T> {
        Guarded { elements: vec![filler; GUARD + size + GUARD], filler }
    }

    /// These elements are lent, and what is beside them is the filler.
    pub fn holding(elements: &[T], filler: T) -> Guarded<T> {
        let mut guarded = Guarded::new(elements.len(), filler);
        guarded.lent().copy_from_slice(elements);
        guarded
    }

    pub fn lent(&mut self) -> &mut [T] {
        let end = self.elements.len() - GUARD;
        &mut self.elements[GUARD..end]
    }

    pub fn array<const SIZE: usize>(&mut self) -> &mut [T; SIZE] {
        self.lent().try_into().expect("as many as were asked for")
    }

    pub fn one(&mut self) -> &mut T {
        &mut self.lent()[0]
    }

    pub fn all(&self, value: T) -> bool {
        self.elements[GUARD..self.elements.len() - GUARD].iter().all(|&element| element == value)
    }

    pub fn assert_guarded(&self, what: &str) {
        let (front, rest) = self.elements.split_at(GUARD);
        let back = &rest[rest.len() - GUARD..];
        assert_eq!(front, [self.filler; GUARD], "before {what}");
        assert_eq!(back, [self.filler; GUARD], "behind {what}");
    }
}
