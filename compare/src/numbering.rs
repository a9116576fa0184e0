//! The numbering of cases: first all the counted ones, mixed, then the drawn ones, by the seed.

use crate::families::{Counted, Family};
use crate::prng::Prng;

/// A kind of drawn case: its name, how often it is drawn, and its maker.
pub struct Kind<C> {
    pub name: &'static str,
    pub share: u32,
    pub make: fn(&mut Prng) -> C,
}

/// The place of one of the kinds, drawn by its share.
pub fn draw_kind<C>(prng: &mut Prng, kinds: &[Kind<C>]) -> usize {
    let mut left = prng.below(kinds.iter().map(|kind| kind.share).sum());
    for (place, kind) in kinds.iter().enumerate() {
        if left < kind.share {
            return place;
        }
        left -= kind.share;
    }
    0
}

/// Cases that are counted and drawn.
pub trait Numbered: Sized + 'static {
    /// Keeps the numbers that they draw apart from those of others.
    const STREAM: u64;
    const FAMILIES: &'static [Family<Self>];
    const KINDS: &'static [Kind<Self>];
}

pub struct Cases<C: Numbered> {
    pub seed: u64,
    counted: Counted<C>,
}

impl<C: Numbered> Cases<C> {
    pub fn new(seed: u64) -> Cases<C> {
        Cases { seed, counted: Counted::new(C::FAMILIES) }
    }

    /// How many counted cases there are.
    pub fn counted(&self) -> u64 {
        self.counted.count()
    }

    /// The names of the kinds, counted and drawn; a kind is known by its place among them.
    pub fn kinds() -> Vec<&'static str> {
        let families = C::FAMILIES.iter().map(|family| family.name);
        families.chain(C::KINDS.iter().map(|kind| kind.name)).collect()
    }

    /// Case k with the place of its kind.
    pub fn case(&self, number: u64) -> (usize, C) {
        let mut prng = Prng::of_case(self.seed, C::STREAM, number);
        if number < self.counted() {
            return self.counted.case(number, &mut prng);
        }
        let drawn = draw_kind(&mut prng, C::KINDS);
        (C::FAMILIES.len() + drawn, (C::KINDS[drawn].make)(&mut prng))
    }
}
