//! A clause that does not hold, and in what: of demand 3, of a round trip.

use std::fmt;

#[derive(Clone)]
pub struct Broken<C> {
    pub clause: C,
    words: String,
}

impl<C> Broken<C> {
    pub fn new(clause: C, name: &str, words: &str) -> Broken<C> {
        Broken { clause, words: format!("{name}: {words}") }
    }
}

impl<C> fmt::Display for Broken<C> {
    fn fmt(&self, out: &mut fmt::Formatter) -> fmt::Result {
        out.write_str(&self.words)
    }
}
