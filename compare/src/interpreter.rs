//! Document 01 taken at its word, with the half words and signed loads of document 02's request L1, the
//! rules of EQ, ADD and SUB from its requests L4 and L13, the limits from its request L5, and its request
//! L9, which keeps results off register 15: reading, beginning and running, plain and in its order.

use crate::types::{Began, Buffers, Engine, Header, Lists, Ran, State};

pub const ENGINE: Engine = Engine { name: "interpreter", read, begin, run };

pub const FIRST_BYTES: [u8; 4] = [0x54, 0x55, 0x4E, 0x31];
pub const CODE_AT: u32 = 32;

const STOP: u8 = 0;
const MOV: u8 = 1;
const ADD: u8 = 2;
const SUB: u8 = 3;
const MUL: u8 = 4;
const AND: u8 = 5;
const OR: u8 = 6;
const XOR: u8 = 7;
const SHL: u8 = 8;
const SHR: u8 = 9;
const SAR: u8 = 10;
const EQ: u8 = 11;
const LTU: u8 = 12;
const LD8: u8 = 13;
const LD32: u8 = 14;
const ST8: u8 = 15;
const ST32: u8 = 16;
const JNZ: u8 = 17;
const EMIT: u8 = 18;
const OPEN: u8 = 19;
const CLOSE: u8 = 20;
const LD16: u8 = 21;
const LDS8: u8 = 22;
const LDS16: u8 = 23;
const ST16: u8 = 24;

const LITERAL: u8 = 255;

/// The frame register (02, L9).
const FRAME: u8 = 15;

const FILLED: u32 = 1;
const UNDEFINED: u32 = 2;

/// A refusal's number and index.
pub type Refusal = (u32, u32);

// ---- What an image holds ----

/// The little-endian word at a byte offset.
fn word(bytes: &[u8], at: usize) -> u32 {
    u32::from_le_bytes([bytes[at], bytes[at + 1], bytes[at + 2], bytes[at + 3]])
}

pub fn read(image: &[u8]) -> (Header, &[u8]) {
    match check_image(image) {
        Ok(header) => (header, &image[CODE_AT as usize..regions_at(header.n) as usize]),
        Err((number, index)) => (Header { number, index, ..Header::default() }, &[]),
    }
}

pub fn regions_at(n: u32) -> u32 {
    CODE_AT + 8 * n
}

pub fn data_at(n: u32, r: u32) -> u32 {
    regions_at(n) + 12 * r
}

/// Refusals 1 to 7, in number order.
fn check_image(image: &[u8]) -> Result<Header, Refusal> {
    if image.len() < 32 {
        return Err((1, 0));
    }
    if image[0..4] != FIRST_BYTES {
        return Err((2, 0));
    }
    let (m, n, r, d) = (word(image, 4), word(image, 8), word(image, 16), word(image, 24));
    let header = Header { number: 0, index: 0, m, n, r, d };
    if !within_limits(&header) {
        return Err((3, 0));
    }
    if !laid_out(image, &header) {
        return Err((4, 0));
    }
    check_instructions(image, &header)?;
    let regions = (0..r).map(|index| region(image, &header, index));
    let filled = check_regions(regions, &header)?;
    if filled != u64::from(header.d) {
        return Err((7, 0));
    }
    Ok(header)
}

/// The limits of M, N, R and D (01; M, N and D as 02, L5 raises them).
pub fn within_limits(header: &Header) -> bool {
    (1..=8192).contains(&header.m)
        && (1..=2048).contains(&header.n)
        && header.r <= 32
        && header.d <= 8192
}

/// The three offsets and the image's length are exactly as computed from the counts.
fn laid_out(image: &[u8], header: &Header) -> bool {
    let length = data_at(header.n, header.r) + header.d;
    word(image, 12) == CODE_AT
        && word(image, 20) == regions_at(header.n)
        && word(image, 28) == data_at(header.n, header.r)
        && image.len() == length as usize
}

fn check_instructions(image: &[u8], header: &Header) -> Result<(), Refusal> {
    for index in 0..header.n {
        let at = (CODE_AT + 8 * index) as usize;
        if !instruction_allowed(&image[at..at + 8], header) {
            return Err((5, index));
        }
    }
    Ok(())
}

/// Does the instruction keep to its row of the table, and its result off register 15 (02, L9)?
pub fn instruction_allowed(bytes: &[u8], header: &Header) -> bool {
    let (op, d, a, b) = (bytes[0], bytes[1], bytes[2], bytes[3]);
    let imm = word(bytes, 4);
    let in_row = match op {
        STOP => d == 0 && a == 0 && b == 0 && imm == 0,
        MOV => d <= 15 && a == 0 && operand_allowed(b, imm),
        ADD..=LTU => d <= 15 && a <= 15 && operand_allowed(b, imm),
        LD8..=ST32 | LD16..=ST16 => d <= 15 && a <= 15 && b == 0,
        JNZ => d == 0 && a <= 15 && b == 0 && imm < header.n,
        EMIT => d == 0 && a <= 15 && b == 0 && imm <= 7,
        OPEN | CLOSE => d == 0 && a == 0 && b == 0 && span_allowed(imm, header.m),
        _ => false,
    };
    in_row && !(d == FRAME && has_result(op))
}

/// Ops 1 to 14 and 21 to 23, whose d is a register that they write; a store's is its source.
fn has_result(op: u8) -> bool {
    matches!(op, MOV..=LD32 | LD16..=LDS16)
}

fn operand_allowed(b: u8, imm: u32) -> bool {
    (b <= 15 && imm == 0) || b == LITERAL
}

fn span_allowed(imm: u32, m: u32) -> bool {
    let (start, length) = span(imm);
    length >= 1 && start + length <= m
}

/// Start and length of OPEN and CLOSE.
fn span(imm: u32) -> (u32, u32) {
    (imm & 0xFFFF, imm >> 16)
}

/// Start, length and kind of a region.
fn region(image: &[u8], header: &Header, index: u32) -> [u32; 3] {
    let at = (regions_at(header.n) + 12 * index) as usize;
    [word(image, at), word(image, at + 4), word(image, at + 8)]
}

/// The sum of the regions' filled lengths, or refusal 6.
pub fn check_regions(
    regions: impl Iterator<Item = [u32; 3]>,
    header: &Header,
) -> Result<u64, Refusal> {
    let mut previous_end = 0;
    let mut filled = 0;
    for (index, [start, length, kind]) in (0..).zip(regions) {
        let end = u64::from(start) + u64::from(length);
        let allowed = length >= 1
            && u64::from(start) >= previous_end
            && end <= u64::from(header.m)
            && (kind == FILLED || kind == UNDEFINED);
        if !allowed {
            return Err((6, index));
        }
        if kind == FILLED {
            filled += u64::from(length);
        }
        previous_end = end;
    }
    Ok(filled)
}

// ---- Beginning ----

pub fn begin(image: &[u8], regs: &[u32; 16], buffers: Buffers) -> Began {
    let (header, _) = read(image);
    if header.number != 0 {
        return Began { number: header.number, index: header.index, state: State::default() };
    }
    if !buffers_fit(&buffers, header.m) {
        return Began { number: 8, index: 0, state: State::default() };
    }
    set_out(image, &header, buffers);
    let mut vregs = [u32::MAX; 16];
    vregs[15] = 0;
    let state = State { regs: *regs, vregs, index: 0, steps: 0, outputs: 0, reports: 0 };
    Began { number: 0, index: 0, state }
}

fn buffers_fit(buffers: &Buffers, m: u32) -> bool {
    let m = m as usize;
    buffers.mem.len() == m && buffers.v.len() == m && buffers.a.len() == m
}

/// Memory, V and A bytes as the regions say; what no region covers is unaddressable and undefined.
fn set_out(image: &[u8], header: &Header, buffers: Buffers) {
    buffers.a.fill(0);
    buffers.v.fill(255);
    let mut data = &image[data_at(header.n, header.r) as usize..];
    for index in 0..header.r {
        let [start, length, kind] = region(image, header, index);
        let (start, length) = (start as usize, length as usize);
        let end = start + length;
        buffers.a[start..end].fill(1);
        if kind == FILLED {
            let (bytes, rest) = data.split_at(length);
            buffers.mem[start..end].copy_from_slice(bytes);
            buffers.v[start..end].fill(0);
            data = rest;
        }
    }
}

// ---- A run, its lists and its end ----

pub fn run(image: &[u8], state: &State, buffers: Buffers, lists: Lists, budget: u32) -> Ran {
    let (header, code) = read(image);
    if header.number != 0 {
        return Ran { number: header.number, index: header.index, reason: 0, state: *state };
    }
    let number = refuse_run(&header, state, &buffers, &lists, budget);
    if number != 0 {
        return Ran { number, index: 0, reason: 0, state: *state };
    }
    let mut machine = Machine {
        state: *state,
        mem: buffers.mem,
        v: buffers.v,
        a: buffers.a,
        reports: lists.reports,
        outputs: lists.outputs,
    };
    let reason = machine.go(code, budget);
    Ran { number: 0, index: 0, reason, state: machine.state }
}

/// Refusals 8 to 11, in number order, or 0.
fn refuse_run(h: &Header, state: &State, buffers: &Buffers, lists: &Lists, budget: u32) -> u32 {
    if !buffers_fit(buffers, h.m) || !lists_fit(lists) {
        8
    } else if u64::from(state.steps) + u64::from(budget) > 1_000_000 {
        9
    } else if buffers.a.iter().any(|&a| a > 1) {
        10
    } else if state.index > h.n
        || state.outputs as usize > lists.outputs.len() / 2
        || u64::from(state.reports) > 2 * u64::from(state.steps)
    {
        11
    } else {
        0
    }
}

fn lists_fit(lists: &Lists) -> bool {
    lists.reports.len() % 4 == 0
        && lists.reports.len() <= 256
        && lists.outputs.len() % 2 == 0
        && lists.outputs.len() <= 512
}

/// The machine during one run.
struct Machine<'a> {
    state: State,
    mem: &'a mut [u8],
    v: &'a mut [u8],
    a: &'a mut [u8],
    reports: &'a mut [u32],
    outputs: &'a mut [u32],
}

impl Machine<'_> {
    /// Steps until a stop reason is met; the reason.
    fn go(&mut self, code: &[u8], budget: u32) -> u32 {
        let (code, _) = code.as_chunks::<8>();
        let mut left = budget;
        loop {
            let Some(instruction) = code.get(self.state.index as usize) else {
                break 2;
            };
            let op = instruction[0];
            if op == STOP {
                break 1;
            }
            if op == EMIT && self.state.outputs as usize >= self.outputs.len() / 2 {
                break 4;
            }
            if left == 0 {
                break 3;
            }
            self.step(instruction);
            left -= 1;
        }
    }

    fn step(&mut self, instruction: &[u8; 8]) {
        let &[op, d, a, b, i0, i1, i2, i3] = instruction;
        let (d, a, b) = (usize::from(d), usize::from(a), usize::from(b));
        let imm = u32::from_le_bytes([i0, i1, i2, i3]);
        let (x, v) = (self.state.regs[a], self.state.vregs[a]);
        let literal = b == usize::from(LITERAL);
        let (y, w) = if literal { (imm, 0) } else { (self.state.regs[b], self.state.vregs[b]) };
        let amount = y % 32;
        let mut next = self.state.index + 1;
        match op {
            MOV => self.set(d, y, w),
            ADD => self.set(d, x.wrapping_add(y), addition(x, v, y, w)),
            SUB => self.set(d, x.wrapping_sub(y), subtraction(x, v, y, w)),
            MUL => self.set(d, x.wrapping_mul(y), left(v | w)),
            AND => self.set(d, x & y, (v | w) & (x | v) & (y | w)),
            OR => self.set(d, x | y, (v | w) & (!x | v) & (!y | w)),
            XOR if a == b => self.set(d, 0, 0),
            XOR => self.set(d, x ^ y, v | w),
            SHL => self.set(d, x << amount, shifted(w, v << amount)),
            SHR => self.set(d, x >> amount, shifted(w, v >> amount)),
            SAR => self.set(d, arithmetic(x, amount), shifted(w, arithmetic(v, amount))),
            EQ => self.set(d, u32::from(x == y), equality(x, v, y, w)),
            LTU => self.set(d, u32::from(x < y), u32::from((v | w) != 0)),
            LD8 => self.load(d, a, imm, 1, Widening::Zero),
            LD16 => self.load(d, a, imm, 2, Widening::Zero),
            LD32 => self.load(d, a, imm, 4, Widening::Zero),
            LDS8 => self.load(d, a, imm, 1, Widening::Sign),
            LDS16 => self.load(d, a, imm, 2, Widening::Sign),
            ST8 => self.store(d, a, imm, 1),
            ST16 => self.store(d, a, imm, 2),
            ST32 => self.store(d, a, imm, 4),
            JNZ => {
                self.look_at(a, 2);
                if x != 0 {
                    next = imm;
                }
            }
            EMIT => {
                self.look_at(a, 5);
                self.output(imm, x);
            }
            OPEN => self.mark(imm, 1),
            CLOSE => self.mark(imm, 0),
            _ => {} // no other op is in an accepted image
        }
        self.state.index = next;
        self.state.steps += 1;
    }

    fn set(&mut self, d: usize, data: u32, shadow: u32) {
        self.state.regs[d] = data;
        self.state.vregs[d] = shadow;
    }

    /// If V of the register is not 0, report it and set it to 0.
    fn look_at(&mut self, a: usize, kind: u32) {
        let v = self.state.vregs[a];
        if v != 0 {
            self.report(kind, v);
            self.state.vregs[a] = 0;
        }
    }

    /// Where byte k of an access lies (not wrapped), if it is addressable.
    fn addressable_byte(&self, address: u32, k: u32) -> Option<usize> {
        let at = u64::from(address) + u64::from(k);
        if at >= self.mem.len() as u64 || self.a[at as usize] == 0 {
            return None;
        }
        Some(at as usize)
    }

    fn load(&mut self, d: usize, a: usize, imm: u32, size: u32, widening: Widening) {
        self.look_at(a, 1);
        let address = self.state.regs[a].wrapping_add(imm);
        let (mut data, mut shadow) = (0, 0);
        let mut unaddressable = false;
        for k in 0..size {
            if let Some(at) = self.addressable_byte(address, k) {
                data |= u32::from(self.mem[at]) << (8 * k);
                shadow |= u32::from(self.v[at]) << (8 * k);
            } else {
                unaddressable = true;
            }
        }
        if unaddressable {
            self.report(3, address);
        }
        self.set(d, widening.of(data, size), widening.of(shadow, size));
    }

    fn store(&mut self, d: usize, a: usize, imm: u32, size: u32) {
        self.look_at(a, 1);
        let address = self.state.regs[a].wrapping_add(imm);
        let data = self.state.regs[d].to_le_bytes();
        let shadow = self.state.vregs[d].to_le_bytes();
        let mut unaddressable = false;
        for k in 0..size {
            if let Some(at) = self.addressable_byte(address, k) {
                self.mem[at] = data[k as usize];
                self.v[at] = shadow[k as usize];
            } else {
                unaddressable = true;
            }
        }
        if unaddressable {
            self.report(4, address);
        }
    }

    /// OPEN and CLOSE: A as given, V 255, data stays.
    fn mark(&mut self, imm: u32, a: u8) {
        let (start, length) = span(imm);
        let (start, end) = (start as usize, (start + length) as usize);
        self.a[start..end].fill(a);
        self.v[start..end].fill(255);
    }

    fn report(&mut self, kind: u32, detail: u32) {
        let words = [self.state.steps, self.state.index, kind, detail];
        let at = 4 * self.state.reports as usize;
        if let Some(place) = self.reports.get_mut(at..at + 4) {
            place.copy_from_slice(&words);
        }
        self.state.reports += 1;
    }

    fn output(&mut self, port: u32, value: u32) {
        let at = 2 * self.state.outputs as usize;
        if let Some(place) = self.outputs.get_mut(at..at + 2) {
            place.copy_from_slice(&[port, value]);
        }
        self.state.outputs += 1;
    }
}

// ---- Widening ----

/// What a load puts above its bytes, in data and V alike.
#[derive(Clone, Copy)]
enum Widening {
    /// Noughts (ZWiden in 000).
    Zero,
    /// Copies of their top bit (02, L1; SWiden in 000).
    Sign,
}

impl Widening {
    /// The word that has so many bytes at its low end.
    fn of(self, bytes: u32, size: u32) -> u32 {
        let above = 32 - 8 * size;
        match self {
            Widening::Zero => bytes,
            Widening::Sign => arithmetic(bytes << above, above),
        }
    }
}

// ---- Shadow rules ----

/// The lowest undefined bit and all above it.
fn left(v: u32) -> u32 {
    v | v.wrapping_neg()
}

/// The data with undefined bits 0 (02, L13).
fn low(x: u32, v: u32) -> u32 {
    x & !v
}

/// The data with undefined bits 1 (02, L13).
fn high(x: u32, v: u32) -> u32 {
    x | v
}

/// The V of ADD (02, L13): v or w or (low x plus low y, xor high x plus high y).
fn addition(x: u32, v: u32, y: u32, w: u32) -> u32 {
    let lowest = low(x, v).wrapping_add(low(y, w));
    let highest = high(x, v).wrapping_add(high(y, w));
    let carried = lowest ^ highest;
    v | w | carried
}

/// The V of SUB (02, L13): v or w or (low x minus high y, xor high x minus low y).
fn subtraction(x: u32, v: u32, y: u32, w: u32) -> u32 {
    let lowest = low(x, v).wrapping_sub(high(y, w));
    let highest = high(x, v).wrapping_sub(low(y, w));
    let borrowed = lowest ^ highest;
    v | w | borrowed
}

/// The V of a shift: all ones if the amount is not defined.
fn shifted(w: u32, v: u32) -> u32 {
    if w != 0 {
        u32::MAX
    } else {
        v
    }
}

/// The V of EQ (02, L4): 0 if some bit is defined on both sides and differs, or if no bit of either
/// is undefined; otherwise 1.
fn equality(x: u32, v: u32, y: u32, w: u32) -> u32 {
    let differs = ((x ^ y) & !v & !w) != 0;
    let defined = (v | w) == 0;
    if differs || defined {
        0
    } else {
        1
    }
}

/// Arithmetic right shift.
fn arithmetic(x: u32, amount: u32) -> u32 {
    ((x as i32) >> amount) as u32
}
