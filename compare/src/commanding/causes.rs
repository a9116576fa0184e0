//! What is wrong with a list and a number, each cause of refusal 13 by itself.

use super::case::Case;

/// The most words of a list of outputs, and the outputs of such a list.
pub const MOST_WORDS: usize = 512;
pub const MOST_OUTPUTS: usize = MOST_WORDS / 2;
pub const HIGHEST_PORT: u32 = 7;

/// The causes: an odd number of words, too many, a port word above 7, a number that is not in the list.
pub const ODD: usize = 0;
pub const LONG: usize = 1;
pub const PORT: usize = 2;
pub const OUTSIDE: usize = 3;
const CAUSES: usize = 4;

pub struct Causes {
    /// Which there are.
    pub are: [bool; CAUSES],
    /// The outputs whose port words are above 7, a part of an output too.
    pub ports: Vec<usize>,
}

impl Causes {
    pub fn of(case: &Case) -> Causes {
        let words = case.outputs.part().len();
        let ports = case.ports().enumerate().filter(|&(_, port)| port > HIGHEST_PORT);
        let ports: Vec<usize> = ports.map(|(place, _)| place).collect();
        let is_outside = case.number >= words / 2;
        let are = [words % 2 == 1, words > MOST_WORDS, !ports.is_empty(), is_outside];
        Causes { are, ports }
    }

    pub fn count(&self) -> usize {
        self.are.iter().filter(|&&is| is).count()
    }

    /// Is this the one cause?
    pub fn is_alone(&self, cause: usize) -> bool {
        self.are[cause] && self.count() == 1
    }
}
