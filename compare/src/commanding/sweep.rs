//! The sweep: every value word, or one of so many, at each gate, alone in its list, on two commanders; and how
//! many words pass, which is known beforehand.

use std::fmt;
use std::ops::Range;

use super::case::answer_of;
use super::values::{self, ENDS, GATES};
use crate::differ::Differ;
use crate::guard::guarded;
use crate::layout::Layout;
use crate::parallel;
use crate::types::Commander;

/// How many value words there are.
const WORDS: u64 = 1 << 32;
/// The value minus 0.
const MINUS_ZERO: u64 = 1 << 31;
/// One of so many is swept in every run. It is odd, so that all low bits vary.
const STRIDE: u64 = 63;
/// Words about an end, on either side, that are swept as well.
const ABOUT: u32 = 4096;
/// Words that a thread takes at a time.
const CHUNK: u64 = 1 << 20;

/// The answer of a blocked output.
const BLOCKED: u8 = 4;

/// A word on which two commanders differ.
pub struct Failure {
    word: u32,
    port: u32,
    words: String,
}

impl fmt::Display for Failure {
    fn fmt(&self, out: &mut fmt::Formatter) -> fmt::Result {
        let Failure { word, port, words } = self;
        write!(out, "sweep: --swept {word}\n  output [{port:x}, {word:x}]\n  {words}")
    }
}

/// What came of some words at one gate.
#[derive(Default)]
struct Met {
    passed: u64,
    blocked: u64,
    differing: u64,
    /// The first of these.
    failure: Option<Failure>,
}

impl Met {
    fn add(&mut self, other: Met) {
        self.passed += other.passed;
        self.blocked += other.blocked;
        self.differing += other.differing;
        self.failure = self.failure.take().or(other.failure);
    }
}

/// These words at a port on both. A panic is one difference, and ends them.
fn met(commanders: [&Commander; 2], port: u32, words: impl Iterator<Item = u32>) -> Met {
    let (mut met, mut at) = (Met::default(), 0);
    let answer = guarded(|| {
        for word in words {
            at = word;
            let [first, second] =
                commanders.map(|commander| answer_of(commander, &[port, word], 0));
            met.passed += u64::from(first.number == 0 && first.kind != BLOCKED);
            met.blocked += u64::from(first.number == 0 && first.kind == BLOCKED);
            if first == second {
                continue;
            }
            met.differing += 1;
            if met.failure.is_none() {
                let mut differ = Differ::new(commanders.map(|commander| commander.name));
                differ.answered(first, second);
                met.failure = Some(Failure { word, port, words: differ.told() });
            }
        }
    });
    if let Err(words) = answer {
        met.differing += 1;
        met.failure.get_or_insert(Failure { word: at, port, words });
    }
    met
}

/// One of so many words, from this one on.
#[derive(Clone, Copy)]
pub struct Sweep {
    pub stride: u64,
    pub first: u64,
}

impl Sweep {
    pub const ALL: Sweep = Sweep { stride: 1, first: 0 };

    /// Those of a run with this seed; as many seeds as the stride have all words.
    pub fn of_seed(seed: u64) -> Sweep {
        Sweep { stride: STRIDE, first: seed % STRIDE }
    }

    /// How many words there are below this one.
    fn below(&self, word: u64) -> u64 {
        word.saturating_sub(self.first).div_ceil(self.stride)
    }

    fn words(&self, places: Range<u64>) -> impl Iterator<Item = u32> {
        let Sweep { stride, first } = *self;
        places.map(move |place| (first + place * stride) as u32)
    }

    /// How many of them pass at this port: those up to the highest, by their bits, and minus 0.
    fn passing(&self, port: u32) -> u64 {
        let minus_zero = self.below(MINUS_ZERO + 1) - self.below(MINUS_ZERO);
        self.below(u64::from(values::highest(port)) + 1) + minus_zero
    }

    /// At this port, on both.
    fn at_gate(&self, commanders: [&Commander; 2], port: u32) -> Met {
        let work = |places| met(commanders, port, self.words(places));
        let mut all = Met::default();
        for part in parallel::in_order(0..self.below(WORDS), CHUNK, work) {
            all.add(part);
        }
        all
    }

    /// At each gate, on both.
    pub fn swept(&self, commanders: [&Commander; 2]) -> Swept {
        Swept { sweep: *self, gates: GATES.map(|port| self.at_gate(commanders, port)) }
    }
}

/// What came of a sweep.
pub struct Swept {
    sweep: Sweep,
    gates: [Met; GATES.len()],
}

impl Swept {
    pub fn calls(&self) -> u64 {
        GATES.len() as u64 * self.sweep.below(WORDS)
    }

    /// How many words differ.
    pub fn differing(&self) -> u64 {
        self.gates.iter().map(|met| met.differing).sum()
    }

    /// The first that differs at each gate, and what passes otherwise than it should.
    pub fn failures(&self) -> Vec<String> {
        let mut failures = Vec::new();
        for (port, met) in GATES.into_iter().zip(&self.gates) {
            failures.extend(met.failure.iter().map(Failure::to_string));
            let due = self.sweep.passing(port);
            let (words, passed, blocked) = (self.sweep.below(WORDS), met.passed, met.blocked);
            if (passed, blocked) != (due, words - due) {
                failures.push(format!(
                    "sweep: of {words} words {passed} pass at port {port} and {blocked} are \
                     blocked, not {due} and {}",
                    words - due
                ));
            }
        }
        failures
    }

    pub fn table(&self) -> String {
        let layout = Layout(8, 15);
        let row = |(port, met): (u32, &Met)| {
            let counts = [met.passed, met.blocked, self.sweep.passing(port)];
            layout.line(&format!("port {port}"), counts)
        };
        let rows: String = GATES.into_iter().zip(&self.gates).map(row).collect();
        layout.line("", ["passed", "blocked", "to pass"]) + &rows
    }
}

/// Every word about an end at each gate, on both: how many, how many differ, and the first at each gate.
pub fn about_ends(commanders: [&Commander; 2]) -> (u64, u64, Vec<String>) {
    let words = ENDS.into_iter().flat_map(|end| {
        let first = end.wrapping_sub(ABOUT);
        (0..=2 * ABOUT).map(move |place| first.wrapping_add(place))
    });
    let all = GATES.map(|port| met(commanders, port, words.clone()));
    let differing = all.iter().map(|met| met.differing).sum();
    let failures = all.iter().filter_map(|met| met.failure.as_ref().map(Failure::to_string));
    let calls = (GATES.len() * ENDS.len()) as u64 * u64::from(2 * ABOUT + 1);
    (calls, differing, failures.collect())
}

/// One word at each gate.
pub fn try_word(commanders: [&Commander; 2], word: u32) -> Option<Failure> {
    GATES.into_iter().find_map(|port| met(commanders, port, std::iter::once(word)).failure)
}
