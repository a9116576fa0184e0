//! Demand 3 tried from outside: the checker and the bare machine side by side, with other leftovers. With it
//! goes what document 02's requests L9 and L7 make true: register 15 is kept on both, and what both put out makes
//! the same commands.

mod clause;
mod tally;

use std::fmt;

use crate::bare::{Bare, TRAPPED};
use crate::calls::{self, Answer};
use crate::cases::{self, Budget, Call, Desk};
use crate::checker;
use crate::clean;
use crate::commanding;
use crate::damage;
use crate::edges;
use crate::former;
use crate::frame::Frame;
use crate::guard::guarded;
use crate::images::{hex, Image, FORMER_MEMORY, FORMER_ROWS, FRAME};
use crate::prng::Prng;
use crate::programs::{self, Maker};
use crate::types::Engine;

pub use clause::{Broken, Clause, CLAUSES};
pub use tally::Tally;

const STREAM: u64 = 2;
/// Calls after which a series is long enough, on the checker and on a planted fault in its place.
pub const MOST_CALLS: u32 = 1200;
pub const MOST_FAULTY_CALLS: u32 = 400;
/// The same of a large image, every look at which takes long.
const MOST_LARGE_CALLS: u32 = 40;
/// One of so many programs is large.
const LARGE: u64 = 100;
/// Calls after which a series is given up that no run has been accepted in.
const MOST_REFUSED: u32 = 20;
/// Calls after the first report, to see that the count of reports does not go back to 0.
const MOST_REPORTED: u32 = 3;

const ANY_PROGRAM: [Maker; 6] = [
    programs::straight,
    programs::loops,
    programs::accesses,
    programs::ranges,
    programs::jumps,
    programs::legal,
];

/// A refusal's number and index, zeros if there is none.
type Refusal = (u32, u32);

const ACCEPTED: Refusal = (0, 0);

/// What went wrong in a claim case.
enum Wrong {
    /// Another answer of the beginning than the documents', which is the second.
    Began(Refusal, Refusal),
    Broken(Broken),
}

/// A claim case that went wrong, with all that is needed to see it again.
pub struct Failure {
    seed: u64,
    case: u64,
    image: String,
    steps: u32,
    wrong: Wrong,
}

impl Failure {
    /// The clause, if it is the claim that is broken.
    pub fn clause(&self) -> Option<Clause> {
        match &self.wrong {
            Wrong::Began(..) => None,
            Wrong::Broken(broken) => Some(broken.clause),
        }
    }
}

impl fmt::Display for Failure {
    fn fmt(&self, out: &mut fmt::Formatter) -> fmt::Result {
        writeln!(out, "claim: --seed {} --claim {}", self.seed, self.case)?;
        writeln!(out, "  image {}", self.image)?;
        match &self.wrong {
            Wrong::Began(answer, due) => {
                write!(out, "  the beginning gave {answer:?}, not {due:?}")
            }
            Wrong::Broken(broken) => write!(out, "  broken after {} steps: {broken}", self.steps),
        }
    }
}

struct Pair<'a> {
    checker: &'a Engine,
    /// The desk as the beginning found it, and the registers handed in.
    start: (Desk, [u32; 16]),
    desk: Desk,
    bare: Bare,
    trapped: bool,
    clean_steps: u32,
}

fn panicked(message: String) -> Broken {
    Clause::Panic.broken(message)
}

/// Where a run has come to and what it put out.
fn path(desk: &Desk) -> (u32, u32, &[u32]) {
    (desk.state.index, desk.state.steps, &desk.lists.outputs)
}

/// Bits that differ, those with V 0 and those with V 1.
fn split(left: u32, right: u32, shadow: u32) -> (u32, u32) {
    let differing = left ^ right;
    (differing & !shadow, differing & shadow)
}

impl Pair<'_> {
    fn begin<'a>(checker: &'a Engine, image: &Image, prng: &mut Prng) -> Result<Pair<'a>, Wrong> {
        let mut desk = cases::desk(prng, image.bytes(), image.m);
        if prng.one_in(16) {
            std::mem::swap(&mut desk.lists, &mut desk.spare);
        }
        let registers = cases::registers(prng, image.m);
        let opposite = prng.one_in(2);
        let mut other = registers.map(|word| if opposite { !word } else { prng.word() });
        other[usize::from(FRAME)] = registers[usize::from(FRAME)];
        let leftovers: Vec<u8> =
            desk.mem.iter().map(|&byte| if opposite { !byte } else { prng.byte() }).collect();
        let start = (desk.clone(), registers);
        match calls::make(checker, &mut desk, Call::Begin(registers)) {
            Answer::Panicked(message) => return Err(Wrong::Broken(panicked(message))),
            answer => match answer.refusal() {
                None | Some(ACCEPTED) => {}
                Some(refusal) => return Err(Wrong::Began(refusal, ACCEPTED)),
            },
        }
        let bare = guarded(|| Bare::begin(&desk.image, &other, &leftovers));
        let bare = bare.map_err(|message| Wrong::Broken(panicked(message)))?;
        Ok(Pair { checker, start, desk, bare, trapped: false, clean_steps: 0 })
    }

    /// Is the program, as far as it ran clean, reported by the interpreter with this fault, or are its
    /// outputs or its index others?
    fn is_changed_by(&self, fault: &str) -> bool {
        let (mut desk, registers) = self.start.clone();
        let faulty = faults::planted(fault).expect("it is one of the planted faults");
        for call in [Call::Begin(registers), Call::Run(Budget::Exactly(self.clean_steps))] {
            calls::make(faulty, &mut desk, call);
        }
        desk.state.reports > 0 || path(&desk) != path(&self.desk)
    }

    /// Is the image one that document 02's request L5 first allows?
    fn is_large(&self) -> bool {
        former::is_above(&self.desk.image)
    }

    /// A run on the checker and, unless refused, on the bare machine; the two stop reasons.
    fn run(&mut self, budget: Budget) -> Result<Option<[u32; 2]>, Broken> {
        let budget = budget.after(self.desk.state.steps);
        let call = Call::Run(Budget::Exactly(budget));
        match calls::make(self.checker, &mut self.desk, call) {
            Answer::Ran(ran) if ran.number == 0 => {
                let places = self.desk.lists.outputs.len() / 2;
                let reason = guarded(|| self.bare.run(&self.desk.image, places, budget));
                let reason = reason.map_err(panicked)?;
                self.trapped |= reason == TRAPPED;
                Ok(Some([ran.reason, reason]))
            }
            Answer::Panicked(message) => Err(panicked(message)),
            _ => Ok(None),
        }
    }

    /// The claim's clauses after a step, while no report is made.
    fn look(&mut self, tally: &mut Tally) -> Result<(), Broken> {
        let (state, bare) = (&self.desk.state, &self.bare);
        if self.trapped {
            return Err(Clause::Trap.broken(format!("of the bare machine, steps {}", bare.steps)));
        }
        Clause::Steps.same("", state.steps, bare.steps)?;
        Clause::Index.same("", state.index, bare.index)?;
        Clause::OutputCount.same("", state.outputs, bare.outputs.len() as u32)?;
        let listed = self.desk.lists.outputs.chunks_exact(2);
        for (k, (listed, &(port, value))) in listed.zip(&bare.outputs).enumerate() {
            Clause::Port.same(format_args!("output {k}, "), listed[0], port)?;
            Clause::Value.same(format_args!("output {k}, "), listed[1], value)?;
        }
        let unlike = self.registers()? | self.memory()?;
        self.clean_steps = state.steps;
        tally.looks += 1;
        tally.differing += u64::from(unlike != 0);
        let far = state.index >= FORMER_ROWS && self.bare.mem.len() > FORMER_MEMORY as usize;
        tally.large += u64::from(far);
        Ok(())
    }

    /// The undefined bits that differ, or the clause on defined bits.
    fn registers(&self) -> Result<u32, Broken> {
        let state = &self.desk.state;
        let mut unlike = 0;
        for (k, &theirs) in self.bare.regs.iter().enumerate() {
            let (wrong, free) = split(state.regs[k], theirs, state.vregs[k]);
            if wrong != 0 {
                return Err(Clause::RegisterBits.broken(format!("{wrong:#x} of register {k}")));
            }
            unlike |= free;
        }
        Ok(unlike)
    }

    fn memory(&self) -> Result<u32, Broken> {
        let desk = &self.desk;
        let mut unlike = 0;
        for (k, &addressable) in self.bare.addressable.iter().enumerate() {
            let of = format_args!("byte {k}, addressable on ");
            Clause::Mark.same(of, u32::from(desk.a[k] == 1), u32::from(addressable))?;
            let [ours, theirs, shadow] = [desk.mem[k], self.bare.mem[k], desk.v[k]].map(u32::from);
            let (wrong, free) = split(ours, theirs, shadow);
            if addressable && wrong != 0 {
                return Err(Clause::ByteBits.broken(format!("{wrong:#x} of byte {k}")));
            }
            unlike |= if addressable { free } else { 0 };
        }
        Ok(unlike)
    }

    /// Register 15 as it was handed in and defined, on the checker and on the bare machine, which has no V.
    fn frame(&self, tally: &mut Tally) -> Result<(), Broken> {
        tally.frames_reported += u64::from(self.desk.state.reports > 0);
        let (_, registers) = &self.start;
        let ours = Frame::of(&self.desk.state);
        let machines = [("checker", ours), ("bare machine", Frame::begun(&self.bare.regs))];
        for (machine, left) in machines {
            if let Some(words) = Frame::begun(registers).unkept(left) {
                return Err(Clause::Frame.broken(format!("{machine}, {words}")));
            }
        }
        Ok(())
    }

    /// Runs until the program has ended twice, reports are made or it is long enough.
    fn series(&mut self, most: u32, prng: &mut Prng, tally: &mut Tally) -> Result<(), Broken> {
        let large = self.is_large();
        let step_by_step = !prng.one_in(if large { 2 } else { 4 });
        let (mut ends, mut reported, mut accepted) = (0, 0, false);
        self.look(tally)?;
        self.frame(tally)?;
        for calls in 0..if large { MOST_LARGE_CALLS } else { most } {
            let reasons = self.run(budget(prng, step_by_step))?;
            accepted |= reasons.is_some();
            if self.desk.state.reports > 0 {
                reported += 1;
            } else {
                self.look(tally)?;
                ends += u32::from(self.ended(reasons, tally)?);
            }
            self.frame(tally)?;
            if ends == 2 || reported > MOST_REPORTED || (!accepted && calls > MOST_REFUSED) {
                break;
            }
        }
        if self.desk.state.reports > 0 {
            return Ok(());
        }
        self.commands(tally)
    }

    /// The outputs made by either machine, each as the checker's call hands it on, and the number past the end.
    fn commands(&self, tally: &mut Tally) -> Result<(), Broken> {
        let theirs: Vec<u32> =
            self.bare.outputs.iter().flat_map(|&(port, value)| [port, value]).collect();
        let ours = &self.desk.lists.outputs[..theirs.len()];
        for number in 0..=self.bare.outputs.len() {
            let answer = |outputs| commanding::answer_of(&checker::COMMANDER, outputs, number);
            let [ours, theirs] = [answer(ours), answer(&theirs)];
            if ours != theirs {
                let words =
                    format!("of output {number}: checker {ours:?}, bare machine {theirs:?}");
                return Err(Clause::Command.broken(words));
            }
            tally.command(ours);
        }
        Ok(())
    }

    /// The claim's clause after a run: equal stop reasons. Did the program end?
    fn ended(&self, reasons: Option<[u32; 2]>, tally: &mut Tally) -> Result<bool, Broken> {
        let Some([ours, theirs]) = reasons else {
            tally.refused += 1;
            return Ok(false);
        };
        Clause::StopReason.same("", ours, theirs)?;
        Ok(ours != 3)
    }
}

fn budget(prng: &mut Prng, step_by_step: bool) -> Budget {
    match prng.below(24) {
        0 | 1 => Budget::Reaching(edges::MOST_STEPS + 1),
        2 => Budget::Exactly(0),
        _ if step_by_step => Budget::Exactly(1),
        _ => Budget::Exactly(prng.pick(&[1, 2, 3, 5, 17, 100])),
    }
}

/// Both machines on an image; what went wrong with its beginning or in its runs, after how many steps.
fn try_image(
    checker: &Engine,
    image: &Image,
    most_calls: u32,
    prng: &mut Prng,
    tally: &mut Tally,
) -> Result<(), (u32, Wrong)> {
    let mut pair = Pair::begin(checker, image, prng).map_err(|wrong| (0, wrong))?;
    let answer = pair.series(most_calls, prng, tally);
    tally.close(&pair);
    answer.map_err(|broken| (pair.desk.state.steps, Wrong::Broken(broken)))
}

/// An image that names register 15 as d of one row, which the beginning has to refuse with 5 there. If it is
/// accepted, it is run to see what becomes of the register.
fn try_refused(
    checker: &Engine,
    image: &Image,
    due: Refusal,
    prng: &mut Prng,
) -> Result<(), (u32, Wrong)> {
    match try_image(checker, image, MOST_FAULTY_CALLS, prng, &mut Tally::default()) {
        Ok(()) => Err((0, Wrong::Began(ACCEPTED, due))),
        Err((_, Wrong::Began(refusal, _))) if refusal == due => Ok(()),
        Err((steps, Wrong::Began(refusal, _))) => Err((steps, Wrong::Began(refusal, due))),
        broken => broken,
    }
}

/// Claim case k, a program made to run clean, some of these large, or, one time in four, any program; and then
/// the same program, but for one row that names register 15 as d.
pub fn try_case(
    checker: &Engine,
    seed: u64,
    number: u64,
    most_calls: u32,
    tally: &mut Tally,
) -> Result<(), Failure> {
    let mut prng = Prng::of_case(seed, STREAM, number);
    let maker = match number {
        _ if number % LARGE == LARGE - 1 => clean::large,
        _ if number % 4 == 3 => prng.pick(&ANY_PROGRAM),
        _ => clean::clean,
    };
    let mut image = maker(&mut prng);
    let failure = |image: &Image, (steps, wrong)| {
        let image = hex(&image.bytes());
        Failure { seed, case: number, image, steps, wrong }
    };
    let tried = try_image(checker, &image, most_calls, &mut prng, tally);
    tried.map_err(|wrong| failure(&image, wrong))?;
    let due = (5, damage::name_frame(&mut prng, &mut image));
    try_refused(checker, &image, due, &mut prng).map_err(|wrong| failure(&image, wrong))?;
    tally.refused_images += 1;
    Ok(())
}
