//! Counted cases of a run: the rules of each op in one step, and of the buffers, lists and counts.

use super::{begun, rules, small_image, three_rows, Choices, M};
use crate::cases::{self, Budget, Call, Case};
use crate::edges;
use crate::images::{op, Image, Operand, Row, FORMER_ROWS, FRAME, MOST_ROWS};
use crate::prng::Prng;
use crate::programs::{ACCESSES, ARITHMETIC, STORES};
use crate::types::State;

/// Bytes of a memory whose addresses take more than 8 bits.
const WIDER: u32 = 260;

/// One step from a state with these registers and V words; the others hold anything.
fn one_step(prng: &mut Prng, rows: Vec<Row>, known: &[(u8, u32, u32)]) -> Case {
    let image = small_image(prng, rows);
    one_step_of(prng, &image, known)
}

pub fn one_step_of(prng: &mut Prng, image: &Image, known: &[(u8, u32, u32)]) -> Case {
    let mut desk = cases::desk(prng, image.bytes(), image.m);
    desk.state = State { regs: cases::registers(prng, image.m), ..State::default() };
    desk.state.vregs = std::array::from_fn(|_| edges::shadow(prng));
    for &(register, data, shadow) in known {
        desk.state.regs[usize::from(register)] = data;
        desk.state.vregs[usize::from(register)] = shadow;
    }
    Case { desk, calls: vec![Call::Read, Call::Run(Budget::Exactly(1))] }
}

pub fn arithmetic(choices: &mut Choices, prng: &mut Prng) -> Case {
    let op = choices.pick(&ARITHMETIC);
    let v = choices.pick(&[0, 1, 0x81, 0x8000_0000, 0xFFFF_FFFF]);
    let w = choices.pick(&[0, 1, 0x20, 0xFF00, 0xFFFF_FFFF]);
    let x = choices.pick(&[0, 0xF, 0x80, 0x8000_0001, 0xFFFF_FFFF]);
    let y = choices.pick(&[0, 1, 4, 0xF, 31, 32, 33, 0x8000_0000, 0xFFFF_FFFF]);
    let d = choices.pick(&[3, 1]);
    let (operand, known) = match choices.below(3) {
        0 => (Operand::Register(2), [(1, x, v), (2, y, w)]),
        1 => (Operand::Register(1), [(2, x, v), (1, y, w)]),
        _ => (Operand::Literal(y), [(1, x, v), (2, y, w)]),
    };
    let a = if op == op::MOV { 0 } else { 1 };
    one_step(prng, vec![Row::sum(op, d, a, operand)], &known)
}

/// ADD and SUB of three bits, in which both operands have any data and V; above them defined bits that
/// stop a carry and pass a borrow on, such as do the opposite, or none.
pub fn carry(choices: &mut Choices, prng: &mut Prng) -> Case {
    let op = choices.pick(&[op::ADD, op::SUB]);
    let (shift, above) = choices.pick(&[(0, 0), (7, 0xFFFF_FC00), (29, 0)]);
    let [x, v, y, w] = [0; 4].map(|_| (choices.below(8) as u32) << shift);
    let rows = vec![Row::sum(op, 3, 1, Operand::Register(2))];
    one_step(prng, rows, &[(1, x, v), (2, y | above, w)])
}

pub fn access(choices: &mut Choices, prng: &mut Prng) -> Case {
    let m = choices.pick(&[M, WIDER]);
    let address = choices.pick(&[&edges::addresses(m)[..], &[255, 256]].concat());
    let base = choices.pick(&[0, address, 0xFFFF_FFFE]);
    let v = choices.pick(&[0, 1, 0x8000_0000, 0xFFFF_FFFF]);
    let d = choices.pick(&[1, 2]);
    access_of(choices, prng, m, [base, address], d, v)
}

/// A load or store by each op at an address, by way of register 1, with some of its bytes unaddressable.
pub fn access_of(
    choices: &mut Choices,
    prng: &mut Prng,
    m: u32,
    [base, address]: [u32; 2],
    d: u8,
    v: u32,
) -> Case {
    let op = choices.pick(&ACCESSES);
    let unaddressable = choices.pick(&[0u32, 0b1111, 0b0001, 0b1000, 0b0110]);
    let row = Row::access(op, d, 1, address.wrapping_sub(base));
    let image = Image { m, ..small_image(prng, vec![row]) };
    let mut case = one_step_of(prng, &image, &[(1, base, v)]);
    set_bytes(&mut case.desk.a, address, marks(unaddressable));
    case
}

/// Four bytes from an address on, as far as there are such.
fn set_bytes(buffer: &mut [u8], address: u32, bytes: [u8; 4]) {
    for (k, byte) in bytes.into_iter().enumerate() {
        if let Some(place) = buffer.get_mut(address as usize + k) {
            *place = byte;
        }
    }
}

/// The A of four bytes, 0 where a bit is set.
fn marks(unaddressable: u32) -> [u8; 4] {
    std::array::from_fn(|k| u8::from(unaddressable & (1 << k) == 0))
}

/// Words in which the top bits of a byte and of a half word are set and not set, each without the other,
/// and the bits below without either.
const TOPS: [u32; 5] = [0, 0x80, 0x8000_8000, 0x7F7F_7F7F, 0xFFFF_FFFF];

/// Data and V that a load finds or a store has, with every pattern of unaddressable bytes.
pub fn width(choices: &mut Choices, prng: &mut Prng) -> Case {
    let op = choices.pick(&ACCESSES);
    let address = choices.pick(&edges::addresses(M));
    let unaddressable = choices.below(16) as u32;
    let [data, shadow] = [0; 2].map(|_| choices.pick(&TOPS));
    let mut case = one_step(prng, vec![Row::access(op, 2, 1, address)], &[(1, 0, 0)]);
    let desk = &mut case.desk;
    if STORES.contains(&op) {
        (desk.state.regs[2], desk.state.vregs[2]) = (data, shadow);
    } else {
        set_bytes(&mut desk.mem, address, data.to_le_bytes());
        set_bytes(&mut desk.v, address, shadow.to_le_bytes());
    }
    desk.a.fill(1);
    set_bytes(&mut desk.a, address, marks(unaddressable));
    case
}

pub fn jump(choices: &mut Choices, prng: &mut Prng) -> Case {
    let n = choices.pick(&[4, FORMER_ROWS + 1, MOST_ROWS]);
    let former = FORMER_ROWS.min(n - 1);
    let places = [0, n / 2 - 1, n / 2, former - 1, former, n - 2, n - 1, n];
    let from = choices.pick(&places[..places.len() - 1]);
    let to = choices.pick(&places);
    let x = choices.pick(&[0, 1, 0x100, 0x8000_0000]);
    let v = choices.pick(&[0, 1, 0x8000_0000, 0xFFFF_FFFF]);
    let mut rows = vec![Row::copy(2, Operand::Literal(7)); n as usize];
    rows[from as usize] = Row::jump(1, to);
    let mut case = one_step(prng, rows, &[(1, x, v)]);
    case.desk.state.index = from;
    case
}

pub fn emit(choices: &mut Choices, prng: &mut Prng) -> Case {
    let port = choices.below(9) as u32;
    let places = choices.below(4);
    let made = choices.below(4) as u32;
    let v = choices.pick(&[0, 1, 0x8000_0000, 0xFFFF_FFFF]);
    let budget = choices.below(2) as u32;
    let mut case = one_step(prng, vec![Row::emit(1, port), Row::emit(2, 7)], &[(1, 9, v)]);
    case.desk.lists = cases::lists(prng, 8, 2 * places);
    case.desk.state.outputs = made;
    case.calls.insert(1, Call::Run(Budget::Exactly(budget)));
    case
}

pub fn range(choices: &mut Choices, prng: &mut Prng) -> Case {
    let image = rules::range(choices, prng);
    let mut desk = cases::desk(prng, image.bytes(), image.m);
    desk.state.vregs = [0; 16];
    Case { desk, calls: vec![Call::Read, Call::Run(Budget::Exactly(1))] }
}

/// Register 15, with any V, in every place that may name it.
pub fn frame_used(choices: &mut Choices, prng: &mut Prng) -> Case {
    let op = choices.pick(&[&ARITHMETIC[..], &ACCESSES, &[op::JNZ, op::EMIT]].concat());
    let (first, second) = choices.pick(&[(FRAME, 2), (1, FRAME), (FRAME, FRAME)]);
    let data = choices.pick(&[0, 5, M - 1, 0xFFFF_FFFF]);
    let v = choices.pick(&[0, 1, 0x8000_0000, 0xFFFF_FFFF]);
    let row = match op {
        op::MOV => Row::copy(3, Operand::Register(second)),
        op::JNZ => Row::jump(first, 1),
        op::EMIT => Row::emit(first, 7),
        _ if STORES.contains(&op) => Row::access(op, second, first, 0),
        _ if ACCESSES.contains(&op) => Row::access(op, 3, first, 1),
        _ => Row::sum(op, 3, first, Operand::Register(second)),
    };
    let known = [(1, 4, 0), (FRAME, data, v)];
    one_step(prng, vec![row, Row::stop()], &known)
}

pub fn buffers(choices: &mut Choices, prng: &mut Prng) -> Case {
    let image = small_image(prng, three_rows());
    buffers_of(choices, prng, &image, &[M, 0, M - 1, M + 1, 2 * M])
}

/// Buffers of each of these lengths, some of which do not fit the beginning, or the run after a beginning
/// that they do fit.
pub fn buffers_of(choices: &mut Choices, prng: &mut Prng, image: &Image, lengths: &[u32]) -> Case {
    let mut case = begun(prng, image, &[5]);
    for of in [0, 1, 2] {
        let length = choices.pick(lengths) as usize;
        let desk = &mut case.desk;
        [&mut desk.mem, &mut desk.v, &mut desk.a][of].resize(length, 1);
    }
    match choices.below(3) {
        0 => {}
        1 => drop(case.calls.remove(1)),
        _ => case.calls[1] = Call::Run(Budget::Exactly(u32::MAX)),
    }
    case
}

/// A loop that reports twice and outputs once in each round, to fill lists to the last place.
fn filling(prng: &mut Prng, report_words: usize, output_words: usize) -> Case {
    let rows = vec![
        Row::copy(3, Operand::Literal(150)),
        Row::access(op::LD32, 2, 1, 0xFFFF_0000),
        Row::emit(4, 3),
        Row::access(op::LD8, 4, FRAME, 8),
        Row::copy(1, Operand::Register(4)),
        Row::emit(3, 1),
        Row::sum(op::SUB, 3, 3, Operand::Literal(1)),
        Row::jump(3, 1),
    ];
    let image = small_image(prng, rows);
    let mut case = begun(prng, &image, &[0, 10, 2000, 1]);
    if let Call::Begin(registers) = &mut case.calls[1] {
        registers[usize::from(FRAME)] = 0;
    }
    case.desk.lists = cases::lists(prng, report_words, output_words);
    case
}

pub fn report_lists(choices: &mut Choices, prng: &mut Prng) -> Case {
    let words = choices.below(270);
    filling(prng, words, 512)
}

pub fn output_lists(choices: &mut Choices, prng: &mut Prng) -> Case {
    let words = choices.below(524);
    filling(prng, 256, words)
}

/// Every count of the state, the budget and an A byte at their edges, all combined.
pub fn counts(choices: &mut Choices, prng: &mut Prng) -> Case {
    const PLACES: u32 = 2;
    const N: u32 = 3;
    let most = edges::MOST_STEPS;
    let rows = vec![Row::emit(1, 2), Row::stop(), Row::copy(2, Operand::Register(1))];
    let mut case = one_step(prng, rows, &[(1, 5, 0x80)]);
    case.desk.lists = cases::lists(prng, 8, 2 * PLACES as usize);
    let state = &mut case.desk.state;
    state.index = choices.pick(&[0, 1, 2, N, N + 1, u32::MAX]);
    state.outputs = choices.pick(&[0, PLACES - 1, PLACES, PLACES + 1, u32::MAX]);
    state.steps = choices.pick(&[0, 1, 3, most - 1, most, most + 1, 0x8000_0000, u32::MAX]);
    let twice = state.steps.wrapping_mul(2);
    state.reports = choices.pick(&[0, twice, twice.wrapping_add(1), u32::MAX]);
    case.calls[1] = Call::Run(choices.pick(&[
        Budget::Exactly(0),
        Budget::Exactly(1),
        Budget::Reaching(most),
        Budget::Reaching(most + 1),
        Budget::Exactly(u32::MAX),
        Budget::Reaching(0),
        Budget::Reaching(1),
    ]));
    case.desk.a.fill(1);
    match choices.below(3) {
        0 => {}
        1 => case.desk.a[0] = 2,
        _ => case.desk.a[M as usize - 1] = 255,
    }
    case
}
