//! A case: an image, the state, buffers and lists it finds, and the calls made one after another.

use crate::clean;
use crate::damage;
use crate::edges;
use crate::images::{Image, FORMER_ROWS};
use crate::large;
use crate::numbering::Kind;
use crate::prng::Prng;
use crate::programs::{self, Maker};
use crate::types::State;

/// Everything that is lent to a call.
#[derive(Clone, PartialEq, Eq)]
pub struct Desk {
    pub image: Vec<u8>,
    pub state: State,
    pub mem: Vec<u8>,
    pub v: Vec<u8>,
    pub a: Vec<u8>,
    pub lists: ListPair,
    /// Lists that lie aside until the next swap.
    pub spare: ListPair,
}

#[derive(Clone, Default, PartialEq, Eq)]
pub struct ListPair {
    pub reports: Vec<u32>,
    pub outputs: Vec<u32>,
}

#[derive(Clone, Copy, PartialEq, Eq)]
pub enum Budget {
    Exactly(u32),
    /// What is missing to this many steps, modulo 4,294,967,296.
    Reaching(u32),
}

impl Budget {
    pub fn after(self, steps: u32) -> u32 {
        match self {
            Budget::Exactly(budget) => budget,
            Budget::Reaching(total) => total.wrapping_sub(steps),
        }
    }
}

#[derive(Clone, Copy, PartialEq, Eq)]
pub enum Call {
    Read,
    Begin([u32; 16]),
    Run(Budget),
    /// No call: the lists and the spare ones change places.
    Swap,
}

pub struct Case {
    pub desk: Desk,
    pub calls: Vec<Call>,
}

pub fn lists(prng: &mut Prng, report_words: usize, output_words: usize) -> ListPair {
    ListPair { reports: prng.words(report_words), outputs: prng.words(output_words) }
}

pub fn accepted_lists(prng: &mut Prng) -> ListPair {
    let report_words = prng.pick(&edges::REPORT_WORDS[..edges::REPORT_WORDS_ACCEPTED]);
    let output_words = prng.pick(&edges::OUTPUT_WORDS[..edges::OUTPUT_WORDS_ACCEPTED]);
    lists(prng, report_words, output_words)
}

fn any_lists(prng: &mut Prng) -> ListPair {
    let (report_words, output_words) =
        (prng.pick(&edges::REPORT_WORDS), prng.pick(&edges::OUTPUT_WORDS));
    lists(prng, report_words, output_words)
}

/// Register values, small addresses and values near M among them.
pub fn registers(prng: &mut Prng, m: u32) -> [u32; 16] {
    std::array::from_fn(|_| match prng.below(3) {
        0 => prng.word(),
        1 => edges::address(prng, m),
        _ => edges::word(prng),
    })
}

/// A desk for M bytes, with leftovers everywhere.
pub fn desk(prng: &mut Prng, image: Vec<u8>, m: u32) -> Desk {
    let length = m as usize;
    let open_share = prng.between(1, 4);
    Desk {
        image,
        state: State::default(),
        mem: prng.bytes(length),
        v: (0..length).map(|_| edges::shadow(prng) as u8).collect(),
        a: (0..length).map(|_| u8::from(!prng.one_in(open_share + 1))).collect(),
        lists: accepted_lists(prng),
        spare: any_lists(prng),
    }
}

fn any_state(prng: &mut Prng, m: u32, n: u32, places: u32) -> State {
    let steps = match prng.below(8) {
        0 => prng.pick(&[0, 1, edges::MOST_STEPS]),
        1 => edges::MOST_STEPS - prng.below(20),
        2 => prng.below(edges::MOST_STEPS),
        _ => prng.between(0, 200),
    };
    let twice = 2 * steps;
    let any = prng.between(0, twice);
    let mut regs = registers(prng, m);
    if prng.one_in(2) {
        let alike = prng.pick(&regs);
        regs = regs.map(|word| if prng.one_in(2) { alike } else { word });
    }
    State {
        regs,
        vregs: std::array::from_fn(|_| edges::shadow(prng)),
        index: if prng.one_in(8) { n } else { prng.below(n) },
        steps,
        outputs: if prng.one_in(2) { 0 } else { prng.between(0, places) },
        reports: prng.pick(&[0, twice, twice.min(3), any]),
    }
}

fn budget(prng: &mut Prng) -> Budget {
    let most = edges::MOST_STEPS;
    match prng.below(300) {
        0 => Budget::Reaching(most),
        1..=12 => Budget::Reaching(most + 1),
        13..=20 => Budget::Exactly(0xFFFF_FFFF),
        21..=28 => Budget::Reaching(prng.below(3)),
        29..=60 => Budget::Exactly(0),
        61..=160 => Budget::Exactly(1),
        161..=180 => Budget::Exactly(prng.between(100, 1000)),
        _ => Budget::Exactly(prng.between(1, 20)),
    }
}

fn add_runs(prng: &mut Prng, calls: &mut Vec<Call>, m: u32) {
    for _ in 0..prng.between(1, 8) {
        let run = Call::Run(budget(prng));
        match prng.below(32) {
            0..=3 => calls.extend([Call::Swap, run, Call::Swap]),
            4 => calls.extend([Call::Begin(registers(prng, m)), run]),
            _ => calls.push(run),
        }
    }
}

/// A beginning, and runs that go on from what it left.
fn series(prng: &mut Prng, image: &Image) -> Case {
    let mut desk = desk(prng, image.bytes(), image.m);
    if prng.one_in(2) {
        desk.a = prng.bytes(desk.a.len());
    }
    let mut calls = vec![Call::Read, Call::Begin(registers(prng, image.m))];
    add_runs(prng, &mut calls, image.m);
    Case { desk, calls }
}

/// Runs from a state that no beginning left.
fn from_state(prng: &mut Prng, image: &Image) -> Case {
    let mut desk = desk(prng, image.bytes(), image.m);
    let places = desk.lists.outputs.len() as u32 / 2;
    desk.state = any_state(prng, image.m, image.rows.len() as u32, places);
    let mut calls = vec![Call::Read];
    add_runs(prng, &mut calls, image.m);
    Case { desk, calls }
}

/// Runs of one step each, from words of which few bits are undefined or none.
fn one_by_one(prng: &mut Prng, maker: Maker) -> Case {
    let image = maker(prng);
    one_by_one_of(prng, &image)
}

fn one_by_one_of(prng: &mut Prng, image: &Image) -> Case {
    let mut case = from_state(prng, image);
    for v in &mut case.desk.state.vregs {
        match prng.below(3) {
            0 => *v = 0,
            1 => *v = 1 << prng.below(32),
            _ => {}
        }
    }
    case.calls.truncate(1);
    case.calls.resize(1 + prng.between(1, 8) as usize, Call::Run(Budget::Exactly(1)));
    case
}

/// The same of half words and signed loads, with most addresses those in their rows.
fn half_words_one_by_one(prng: &mut Prng) -> Case {
    let mut case = one_by_one(prng, programs::half_words);
    for word in &mut case.desk.state.regs {
        if !prng.one_in(3) {
            *word = 0;
        }
    }
    case
}

/// The same of large images, from a row some way before the limits, with most registers 0 or 1.
fn large_one_by_one(prng: &mut Prng) -> Case {
    let image = large::image(prng);
    let mut case = one_by_one_of(prng, &image);
    for word in &mut case.desk.state.regs {
        *word = prng.pick(&[0, 0, 1, *word]);
    }
    let towards = edges::below(prng, FORMER_ROWS, image.rows.len() as u32);
    case.desk.state.index = towards.saturating_sub(prng.below(6));
    case
}

fn wrong_length(prng: &mut Prng, buffer: &mut Vec<u8>) {
    match prng.below(4) {
        0 => buffer.clear(),
        1 => buffer.truncate(buffer.len().saturating_sub(1)),
        2 => buffer.push(prng.byte()),
        _ => buffer.extend_from_within(..),
    }
}

/// One thing that makes a run say no.
fn spoil(prng: &mut Prng, desk: &mut Desk, n: u32) {
    let places = desk.lists.outputs.len() as u32 / 2;
    let most = edges::MOST_STEPS;
    match prng.below(9) {
        0 => wrong_length(prng, &mut desk.mem),
        1 => wrong_length(prng, &mut desk.v),
        2 => wrong_length(prng, &mut desk.a),
        3 => desk.lists = any_lists(prng),
        4 => desk.state.steps = prng.pick(&[most - 1, most, most + 1, 0x8000_0000, u32::MAX]),
        5 if !desk.a.is_empty() => {
            let place = prng.place(desk.a.len());
            desk.a[place] = prng.pick(&[2, 3, 128, 255]);
        }
        6 => desk.state.index = prng.pick(&[n, n + 1, u32::MAX]),
        7 => desk.state.outputs = prng.pick(&[places, places + 1, u32::MAX]),
        _ => desk.state.reports = prng.pick(&[2 * (desk.state.steps / 2), 0x8000_0000, u32::MAX]),
    }
}

fn spoiled(prng: &mut Prng) -> Case {
    let image = programs::legal(prng);
    let mut case = from_state(prng, &image);
    for _ in 0..prng.between(1, 3) {
        spoil(prng, &mut case.desk, image.rows.len() as u32);
    }
    if prng.one_in(4) {
        case.calls.insert(1, Call::Begin(registers(prng, image.m)));
    }
    case
}

/// Reading, beginning and one run of bytes that need not be an image.
pub fn of_bytes(prng: &mut Prng, (bytes, m): (Vec<u8>, u32)) -> Case {
    let desk = desk(prng, bytes, m);
    let run = Call::Run(Budget::Exactly(prng.pick(&[0, 1, 5, 50])));
    Case { desk, calls: vec![Call::Read, Call::Begin(registers(prng, m)), run] }
}

fn of_program(prng: &mut Prng, maker: Maker) -> Case {
    let image = maker(prng);
    if prng.one_in(3) {
        from_state(prng, &image)
    } else {
        series(prng, &image)
    }
}

pub const KINDS: [Kind<Case>; 21] = [
    Kind { name: "straight arithmetic", share: 14, make: |p| of_program(p, programs::straight) },
    Kind { name: "sums one by one", share: 8, make: |p| one_by_one(p, programs::sums) },
    Kind { name: "half words one by one", share: 8, make: half_words_one_by_one },
    Kind {
        name: "register 15 one by one",
        share: 3,
        make: |p| one_by_one(p, programs::frame_uses),
    },
    Kind { name: "loads and stores", share: 14, make: |p| of_program(p, programs::accesses) },
    Kind { name: "OPEN and CLOSE", share: 8, make: |p| of_program(p, programs::ranges) },
    Kind { name: "jumps", share: 8, make: |p| of_program(p, programs::jumps) },
    Kind { name: "counted loops", share: 8, make: |p| of_program(p, programs::loops) },
    Kind { name: "any legal rows", share: 14, make: |p| of_program(p, programs::legal) },
    Kind { name: "clean programs", share: 8, make: |p| of_program(p, clean::clean) },
    Kind { name: "largest image", share: 1, make: |p| of_program(p, programs::largest) },
    Kind { name: "large images", share: 2, make: |p| of_program(p, large::image) },
    Kind { name: "large images one by one", share: 8, make: large_one_by_one },
    Kind { name: "spoiled state or buffers", share: 10, make: spoiled },
    Kind { name: "one part damaged", share: 5, make: |p| damaged(p, 1, 0) },
    Kind { name: "two or three damaged", share: 5, make: |p| damaged(p, 2, 1) },
    Kind { name: "bytes damaged", share: 4, make: |p| damaged(p, 0, 1) },
    Kind { name: "d damaged to register 15", share: 3, make: |p| of_made(p, damage::frame_named) },
    Kind { name: "large image damaged", share: 3, make: |p| of_made(p, damage::large) },
    Kind { name: "sizes damaged", share: 2, make: |p| of_made(p, damage::outgrown) },
    Kind { name: "raw bytes", share: 1, make: |p| of_made(p, damage::raw) },
];

fn damaged(prng: &mut Prng, parts: u32, whole: u32) -> Case {
    let parts = if parts > 1 { prng.between(2, 3) } else { parts };
    let whole = if parts > 1 && prng.one_in(2) { 0 } else { whole };
    let bytes = damage::damaged(prng, parts, whole);
    of_bytes(prng, bytes)
}

fn of_made(prng: &mut Prng, maker: fn(&mut Prng) -> (Vec<u8>, u32)) -> Case {
    let bytes = maker(prng);
    of_bytes(prng, bytes)
}
