//! Times the checker, the interpreter and the bare machine on three long images, in turn, in one
//! process, and prints the medians and their ratios (docs/SPEED.md). It fails if a run is not the clean
//! one that it should be, or the checker and the interpreter leave anything different; a time is no
//! reason to fail.

use std::env;
use std::process::ExitCode;
use std::time::Instant;

use compare::bare::Bare;
use compare::checker;
use compare::images::op::{
    ADD, AND, EQ, LD32, LD8, LTU, MUL, OR, SAR, SHL, SHR, ST32, ST8, SUB, XOR,
};
use compare::images::{
    Image, Operand, Region, Row, FILLED, FORMER_ROWS, FRAME, MOST_ROWS, UNDEFINED,
};
use compare::interpreter;
use compare::prng::Prng;
use compare::types::{Buffers, Engine, Lists, Ran};
use Operand::{Literal, Register};

const BUDGET: u32 = 1_000_000;
const REPORT_WORDS: usize = 256;
const OUTPUT_WORDS: usize = 512;
const ROUNDS: usize = 61;
const STOPPED: u32 = 1;
const ENGINES: [Engine; 2] = [checker::ENGINE, interpreter::ENGINE];
/// On the longest image; on shorter ones the first, by which it is seen what reading them takes.
const SHORT_BUDGETS: [u32; 4] = [1, 1_000, 3_000, 10_000];
/// Calls that are timed together where one is too short for the clock.
const SHORT_CALLS: usize = 200;

/// A word with which a loop starts.
fn set(d: u8, word: u32) -> Row {
    Row::copy(d, Literal(word))
}

/// A loop in registers alone: a noisy signal, a filter over it, and two counters.
fn arithmetic() -> Image {
    let rows = vec![
        set(1, 62_495),
        set(2, 2026),
        set(3, 0),
        set(6, 0),
        set(9, 0),
        set(11, 0),
        Row::sum(MUL, 2, 2, Literal(1_103_515_245)),
        Row::sum(ADD, 2, 2, Literal(12_345)),
        Row::sum(SHR, 4, 2, Literal(16)),
        Row::sum(AND, 4, 4, Literal(0x0FFF)),
        Row::sum(SUB, 5, 4, Register(3)),
        Row::sum(SAR, 5, 5, Literal(3)),
        Row::sum(ADD, 3, 3, Register(5)),
        Row::sum(XOR, 6, 6, Register(3)),
        Row::sum(SHL, 7, 6, Literal(5)),
        Row::sum(OR, 7, 7, Register(2)),
        Row::sum(LTU, 8, 3, Register(4)),
        Row::sum(ADD, 9, 9, Register(8)),
        Row::sum(EQ, 10, 7, Register(4)),
        Row::sum(ADD, 11, 11, Register(10)),
        Row::sum(SUB, 1, 1, Literal(1)),
        Row::jump(1, 6),
        Row::emit(9, 0),
        Row::stop(),
    ];
    Image { m: 16, rows, regions: Vec::new(), data: Vec::new() }
}

/// Bytes copied one by one, a third of them undefined.
fn byte_copy() -> Image {
    let rows = vec![
        set(1, 111),
        set(2, 0),
        set(3, 2048),
        set(4, 1500),
        Row::access(LD8, 5, 2, 0),
        Row::access(ST8, 5, 3, 0),
        Row::sum(ADD, 2, 2, Literal(1)),
        Row::sum(ADD, 3, 3, Literal(1)),
        Row::sum(SUB, 4, 4, Literal(1)),
        Row::jump(4, 4),
        Row::sum(SUB, 1, 1, Literal(1)),
        Row::jump(1, 1),
        Row::emit(2, 1),
        Row::stop(),
    ];
    half_filled(rows, 1000, 1500)
}

/// A table of words, some of them undefined, swept and written to another.
fn word_sweep() -> Image {
    let rows = vec![
        set(1, 222),
        set(6, 0),
        set(2, 0),
        Row::access(LD32, 4, 2, 0),
        Row::sum(AND, 5, 4, Literal(0x00FF_00FF)),
        Row::sum(ADD, 6, 6, Register(5)),
        Row::sum(SHR, 7, 4, Literal(3)),
        Row::sum(XOR, 6, 6, Register(7)),
        Row::access(ST32, 6, 2, 2048),
        Row::sum(ADD, 2, 2, Literal(4)),
        Row::sum(LTU, 8, 2, Literal(2000)),
        Row::jump(8, 3),
        Row::sum(SUB, 1, 1, Literal(1)),
        Row::jump(1, 2),
        Row::emit(2, 2),
        Row::stop(),
    ];
    half_filled(rows, 1200, 2000)
}

/// Memory whose first bytes are filled, undefined up to an end, and undefined from 2048 on.
fn half_filled(rows: Vec<Row>, filled: u32, end: u32) -> Image {
    let regions = vec![
        Region { start: 0, length: filled, kind: FILLED },
        Region { start: filled, length: end - filled, kind: UNDEFINED },
        Region { start: 2048, length: 2048, kind: UNDEFINED },
    ];
    Image::new(4096, rows, regions, &mut Prng::of_case(0, 0, 0))
}

/// A begun machine with its buffers and lists.
#[derive(Clone, PartialEq)]
struct Desk {
    mem: Vec<u8>,
    v: Vec<u8>,
    a: Vec<u8>,
    reports: Vec<u32>,
    outputs: Vec<u32>,
}

fn registers(m: usize) -> [u32; 16] {
    let mut registers = [0; 16];
    registers[usize::from(FRAME)] = m as u32;
    registers
}

/// Begins anew and runs; the answer, what is left, and the nanoseconds of so many runs.
fn timed(engine: &Engine, image: &[u8], m: usize, budget: u32, runs: usize) -> (Ran, Desk, f64) {
    let bytes = || vec![0; m];
    let (reports, outputs) = (vec![0; REPORT_WORDS], vec![0; OUTPUT_WORDS]);
    let mut desk = Desk { mem: bytes(), v: bytes(), a: bytes(), reports, outputs };
    let Desk { mem, v, a, reports, outputs } = &mut desk;
    let began = (engine.begin)(image, &registers(m), Buffers { mem, v, a });
    let mut ran = Ran::default();
    let start = Instant::now();
    for _ in 0..runs {
        let (buffers, lists) = (Buffers { mem, v, a }, Lists { reports, outputs });
        ran = (engine.run)(image, &began.state, buffers, lists, budget);
    }
    let time = start.elapsed().as_nanos() as f64;
    (ran, desk, time)
}

/// The same of the bare machine: its reason, its steps and the nanoseconds.
fn timed_bare(image: &[u8], m: usize) -> (u32, u32, f64) {
    let mut bare = Bare::begin(image, &registers(m), &vec![0; m]);
    let start = Instant::now();
    let reason = bare.run(image, OUTPUT_WORDS / 2, BUDGET);
    let time = start.elapsed().as_nanos() as f64;
    (reason, bare.steps, time)
}

fn median(mut times: Vec<f64>) -> f64 {
    times.sort_by(f64::total_cmp);
    times[times.len() / 2]
}

/// A run that was taken to STOP without a report.
fn clean(ran: &Ran) -> bool {
    ran.number == 0 && ran.reason == STOPPED && ran.state.reports == 0
}

/// Rounds in which each engine runs in turn; the complaint, if two runs leave anything different.
fn measure(name: &str, image: &Image, rounds: usize) -> Result<(), String> {
    let bytes = image.bytes();
    let m = image.m as usize;
    let mut times = [Vec::new(), Vec::new(), Vec::new()];
    let mut first: Option<(Ran, Desk)> = None;
    for _ in 0..rounds {
        for (engine, times) in ENGINES.iter().zip(&mut times) {
            let (ran, desk, time) = timed(engine, &bytes, m, BUDGET, 1);
            let left = (ran, desk);
            if !clean(&ran) || first.get_or_insert_with(|| left.clone()) != &left {
                return Err(format!("{name}: {} leaves something else", engine.name));
            }
            times.push(time / f64::from(ran.state.steps));
        }
        let steps = first.as_ref().map_or(0, |(ran, _)| ran.state.steps);
        let (reason, bare_steps, time) = timed_bare(&bytes, m);
        if (reason, bare_steps) != (STOPPED, steps) {
            return Err(format!("{name}: the bare machine ends with {reason} at {bare_steps}"));
        }
        times[2].push(time / f64::from(steps));
    }
    let steps = first.map_or(0, |(ran, _)| ran.state.steps);
    let [ours, plain, bare] = times.map(median);
    println!(
        "{name:10} {steps:8} {ours:8.2} {plain:12.2} {bare:6.2} {:15.2} {:8.2}",
        ours / plain,
        ours / bare
    );
    Ok(())
}

/// Calls with these budgets on the arithmetic image, made so many instructions long, if that is longer.
fn measure_short(rounds: usize, instructions: u32, budgets: &[u32]) {
    let mut image = arithmetic();
    let length = image.rows.len().max(instructions as usize);
    image.rows.resize(length, Row::stop());
    let bytes = image.bytes();
    println!("a call on an image of {length} instructions, nanoseconds");
    println!("budget   checker  interpreter  of interpreter");
    for &budget in budgets {
        let mut times = [Vec::new(), Vec::new()];
        for _ in 0..rounds {
            for (engine, times) in ENGINES.iter().zip(&mut times) {
                let time = timed(engine, &bytes, image.m as usize, budget, SHORT_CALLS).2;
                times.push(time / SHORT_CALLS as f64);
            }
        }
        let [ours, plain] = times.map(median);
        println!("{budget:6} {ours:9.0} {plain:12.0} {:15.2}", ours / plain);
    }
}

fn main() -> ExitCode {
    let rounds = env::args().nth(1).and_then(|word| word.parse().ok()).unwrap_or(ROUNDS);
    println!("medians of {rounds} rounds, nanoseconds a step");
    println!("image         steps  checker  interpreter   bare  of interpreter  of bare");
    let images =
        [("arithmetic", arithmetic()), ("byte copy", byte_copy()), ("word sweep", word_sweep())];
    for (name, image) in &images {
        if let Err(complaint) = measure(name, image, rounds) {
            println!("{complaint}");
            return ExitCode::FAILURE;
        }
    }
    measure_short(rounds, MOST_ROWS, &SHORT_BUDGETS);
    for instructions in [FORMER_ROWS, 0] {
        measure_short(rounds, instructions, &SHORT_BUDGETS[..1]);
    }
    ExitCode::SUCCESS
}
