//! The sorts of cases that have to be met, among the counted and among the drawn.

use super::case::{Answer, Case, KINDS};
use super::causes::{Causes, HIGHEST_PORT, LONG, MOST_OUTPUTS, MOST_WORDS, ODD, OUTSIDE, PORT};
use super::values::{self, Value, CLASSES};
use crate::coverage::{add, named, Counts};
use crate::met;

/// What a sort looks at: what was lent, what is wrong with it, and what came of it.
pub struct Met<'a> {
    pub case: &'a Case,
    pub causes: &'a Causes,
    pub answer: Answer,
}

impl Met<'_> {
    fn words(&self) -> usize {
        self.case.outputs.part().len()
    }

    fn outputs(&self) -> usize {
        self.words() / 2
    }

    fn is_odd(&self) -> bool {
        self.causes.is_alone(ODD)
    }

    fn is_long(&self) -> bool {
        self.causes.is_alone(LONG)
    }

    /// Refused for port words alone, and for the first of them?
    fn has_wrong_port(&self, is: impl Fn(usize, u32) -> bool) -> bool {
        let port = |&place: &usize| self.case.outputs.part()[2 * place];
        let wrong = self.causes.ports.first();
        self.causes.is_alone(PORT) && wrong.is_some_and(|place| is(*place, port(place)))
    }

    /// Refused for the number alone?
    fn is_outside(&self, is: impl Fn(usize) -> bool) -> bool {
        self.causes.is_alone(OUTSIDE) && is(self.case.number)
    }

    /// Refused for the number alone, of which so many bits would do?
    fn is_narrowed(&self, bits: u32) -> bool {
        let low = |number: usize| number as u64 & ((1 << bits) - 1);
        self.is_outside(|number| low(number) < self.outputs() as u64)
    }

    fn combines(&self, first: usize, second: usize) -> bool {
        self.causes.count() == 2 && self.causes.are[first] && self.causes.are[second]
    }

    fn has(&self, outputs: usize) -> bool {
        self.answer.number == 0 && self.outputs() == outputs
    }
}

/// A name, and whether a case is so.
type Sort = (&'static str, fn(&Met) -> bool);

/// By the one cause that there is.
const REFUSED: [Sort; 21] = [
    ("odd", |met| met.is_odd()),
    ("511 words", |met| met.is_odd() && met.words() == MOST_WORDS - 1),
    ("514 words", |met| met.is_long() && met.words() == MOST_WORDS + 2),
    ("more words", |met| met.is_long() && met.words() > MOST_WORDS + 2),
    ("beyond 16 bits", |met| met.is_long() && met.words() > 0xFFFF),
    ("port 8", |met| met.has_wrong_port(|_, port| port == HIGHEST_PORT + 1)),
    ("all ones", |met| met.has_wrong_port(|_, port| port == u32::MAX)),
    ("8 bits of the port would do", |met| met.has_wrong_port(|_, port| port & 0xFF < 8)),
    ("16 bits of it would do", |met| met.has_wrong_port(|_, port| port & 0xFFFF < 8)),
    ("of the output asked for", |met| met.has_wrong_port(|place, _| place == met.case.number)),
    ("of one before it", |met| met.has_wrong_port(|place, _| place < met.case.number)),
    ("of one behind it", |met| met.has_wrong_port(|place, _| place > met.case.number)),
    ("of the last of 256", |met| met.has_wrong_port(|place, _| place + 1 == MOST_OUTPUTS)),
    ("empty list", |met| met.causes.is_alone(OUTSIDE) && met.words() == 0),
    ("number at the end", |met| met.is_outside(|number| number == met.outputs())),
    ("number 256 of 256", |met| {
        met.is_outside(|number| number == MOST_OUTPUTS && met.words() == MOST_WORDS)
    }),
    ("a word's place", |met| met.is_outside(|number| number < met.words())),
    ("8 bits of the number would do", |met| met.is_narrowed(8)),
    ("16 bits of it would do", |met| met.is_narrowed(16)),
    ("32 bits of it would do", |met| met.is_narrowed(32)),
    ("twice the number wraps", |met| met.is_narrowed(63)),
];

const COMBINED: [Sort; 8] = [
    ("odd and above 512", |met| met.combines(ODD, LONG)),
    ("513 words", |met| met.combines(ODD, LONG) && met.words() == MOST_WORDS + 1),
    ("odd and a port", |met| met.combines(ODD, PORT)),
    ("odd and the number", |met| met.combines(ODD, OUTSIDE)),
    ("above 512 and a port", |met| met.combines(LONG, PORT)),
    ("above 512 and the number", |met| met.combines(LONG, OUTSIDE)),
    ("a port and the number", |met| met.combines(PORT, OUTSIDE)),
    ("three or all four", |met| met.causes.count() > 2),
];

const ACCEPTED: [Sort; 4] = [
    ("one output", |met| met.has(1)),
    ("two", |met| met.has(2)),
    ("255", |met| met.has(MOST_OUTPUTS - 1)),
    ("256", |met| met.has(MOST_OUTPUTS)),
];

/// Which of three and more outputs is asked for.
const PLACES: [&str; 3] = ["first", "middle", "last"];

const PORTS: usize = HIGHEST_PORT as usize + 1;

#[derive(Clone, Default)]
pub struct Tallied {
    /// Accepted calls by port and class of value.
    classes: [[u64; CLASSES.len()]; PORTS],
    /// By kind, from bump on, and place.
    places: [[u64; PLACES.len()]; KINDS.len() - 1],
    accepted: [u64; ACCEPTED.len()],
    refused: [u64; REFUSED.len()],
    combined: [u64; COMBINED.len()],
}

impl Tallied {
    fn accept(&mut self, met: &Met) {
        let number = met.case.number;
        let output = &met.case.outputs.part()[2 * number..];
        let value = Value { word: output[1], highest: values::highest(output[0]) };
        let classes = CLASSES.map(|(_, is)| u64::from(is(&value)));
        add(&mut self.classes[output[0] as usize], &classes);
        let place = match met.outputs() {
            0..3 => return,
            _ if number == 0 => 0,
            count if number + 1 == count => 2,
            _ => 1,
        };
        if let Some(counts) = self.places.get_mut(usize::from(met.answer.kind).wrapping_sub(1)) {
            counts[place] += 1;
        }
    }
}

impl met::Tallied for Tallied {
    type Met<'a> = Met<'a>;

    fn add(&mut self, other: &Tallied) {
        for (to, from) in self.classes.iter_mut().zip(&other.classes) {
            add(to, from);
        }
        for (to, from) in self.places.iter_mut().zip(&other.places) {
            add(to, from);
        }
        add(&mut self.accepted, &other.accepted);
        add(&mut self.refused, &other.refused);
        add(&mut self.combined, &other.combined);
    }

    fn meet(&mut self, met: &Met) {
        add(&mut self.accepted, &ACCEPTED.map(|(_, is)| u64::from(is(met))));
        add(&mut self.refused, &REFUSED.map(|(_, is)| u64::from(is(met))));
        add(&mut self.combined, &COMBINED.map(|(_, is)| u64::from(is(met))));
        if met.answer.number == 0 && met.causes.count() == 0 {
            self.accept(met);
        }
    }

    fn each(&self) -> Vec<Counts> {
        let ports = self.classes.iter().enumerate();
        let classes = ports.map(|(port, counts)| (format!("port {port}"), named(&CLASSES, counts)));
        let places = KINDS[1..].iter().zip(&self.places).map(|(kind, counts)| {
            let what = format!("{kind}, of three outputs and more");
            (what, PLACES.into_iter().zip(*counts).collect())
        });
        let sorts = [
            ("accepted", named(&ACCEPTED, &self.accepted)),
            ("refused for one cause", named(&REFUSED, &self.refused)),
            ("refused for several", named(&COMBINED, &self.combined)),
        ]
        .map(|(what, counts)| (what.to_string(), counts));
        classes.chain(places).chain(sorts).collect()
    }
}

pub type Sorts = met::Sorts<Tallied>;
