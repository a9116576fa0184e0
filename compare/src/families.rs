//! Families of cases, each every combination of some choices, and one numbering over all.

use crate::prng::Prng;

/// A number taken apart into one choice after another. Every maker asks for the same choices in
/// the same order, so the product of their counts is the number of its cases.
pub struct Choices {
    rest: u64,
    product: u64,
}

impl Choices {
    fn of(number: u64) -> Choices {
        Choices { rest: number, product: 1 }
    }

    pub fn below(&mut self, count: usize) -> usize {
        let choice = self.rest % count as u64;
        self.rest /= count as u64;
        self.product *= count as u64;
        choice as usize
    }

    pub fn pick<T: Copy>(&mut self, pool: &[T]) -> T {
        pool[self.below(pool.len())]
    }
}

pub struct Family<C> {
    pub name: &'static str,
    pub make: fn(&mut Choices, &mut Prng) -> C,
}

impl<C> Family<C> {
    fn count(&self) -> u64 {
        let mut choices = Choices::of(0);
        (self.make)(&mut choices, &mut Prng::of_case(0, 0, 0));
        choices.product
    }
}

/// Case numbers stride through the families, so that few cases already have met every rule. A
/// prime above the number of counted cases, so that each is met once.
const STRIDE: u64 = 1_000_003;

/// Families and the numbering of their cases, mixed.
pub struct Counted<C: 'static> {
    families: &'static [Family<C>],
    /// Where each family ends if all are counted through one after another.
    ends: Vec<u64>,
}

impl<C> Counted<C> {
    pub fn new(families: &'static [Family<C>]) -> Counted<C> {
        let mut end = 0;
        let mut add = |count| {
            end += count;
            end
        };
        let ends: Vec<u64> = families.iter().map(|family| add(family.count())).collect();
        assert!(end < STRIDE, "{end} counted cases and a stride of {STRIDE}");
        Counted { families, ends }
    }

    /// How many cases there are.
    pub fn count(&self) -> u64 {
        self.ends.last().copied().unwrap_or(0)
    }

    /// The case of a number below their count, and the place of its family.
    pub fn case(&self, number: u64, prng: &mut Prng) -> (usize, C) {
        let place = number * STRIDE % self.count();
        let family = self.ends.partition_point(|&end| end <= place);
        let first = if family == 0 { 0 } else { self.ends[family - 1] };
        (family, (self.families[family].make)(&mut Choices::of(place - first), prng))
    }
}
