//! The sorts of half words and signed loads (L1): which bytes are addressable, and what their top bits are.

use super::Step;
use crate::cases::Desk;
use crate::images::word_at;

/// LDS8.
pub const BYTES_LOADED: [&str; 10] = [
    "defined, top bit 0",
    "defined, top bit 1",
    "undefined below a top bit 0",
    "undefined below a top bit 1",
    "undefined top bit 0",
    "undefined top bit 1",
    "into the address register just reported",
    "unaddressable over a 0",
    "unaddressable over a 1",
    "at M or beyond",
];

/// LD16 and LDS16; the first seven are those of a byte.
pub const HALVES_LOADED: [&str; 19] = [
    BYTES_LOADED[0],
    BYTES_LOADED[1],
    BYTES_LOADED[2],
    BYTES_LOADED[3],
    BYTES_LOADED[4],
    BYTES_LOADED[5],
    BYTES_LOADED[6],
    "low byte unaddressable, top bit 0",
    "low byte unaddressable, top bit 1",
    "low byte unaddressable, undefined top bit",
    "high byte unaddressable over a 0, bit 7 is 0",
    "high byte unaddressable over a 0, bit 7 is 1",
    "high byte unaddressable over a 0, bit 7 undefined",
    "high byte unaddressable over a 1, bit 7 is 0",
    "high byte unaddressable over a 1, bit 7 is 1",
    "high byte unaddressable over a 1, bit 7 undefined",
    "high byte at M",
    "no byte addressable",
    "at the last address",
];

/// ST16.
pub const HALVES_STORED: [&str; 11] = [
    "defined",
    "undefined above the two bytes alone",
    "undefined in the low byte",
    "undefined in the high byte",
    "undefined in both bytes",
    "of the address register just reported",
    "low byte unaddressable",
    "high byte unaddressable",
    "high byte at M",
    "no byte addressable",
    "at the last address",
];

/// A byte of memory with its shadow.
struct Byte {
    data: u8,
    v: u8,
    addressable: bool,
}

impl Byte {
    fn top(&self) -> usize {
        usize::from(self.data >> 7)
    }

    /// 0 or 1 if its top bit is that and defined, 2 if it is undefined.
    fn defined_top(&self) -> usize {
        if self.v >> 7 == 0 {
            self.top()
        } else {
            2
        }
    }
}

/// What a load or store, which leaves A alone, finds at its address.
pub struct Access<'a> {
    pub address: u32,
    /// Did it report and clear the register that it loads or stores?
    reports_d: bool,
    desk: &'a Desk,
}

impl Access<'_> {
    pub fn of<'a>(step: &Step<'a>) -> Access<'a> {
        let &Step { row, before, after: desk } = step;
        let [d, a] = [1, 2].map(|at| usize::from(row[at]));
        let address = before.regs[a].wrapping_add(word_at(row, 4));
        Access { address, reports_d: d == a && before.vregs[a] != 0, desk }
    }

    /// Byte k, if it lies below M.
    fn byte(&self, k: u64) -> Option<Byte> {
        let at = usize::try_from(u64::from(self.address) + k).ok()?;
        let buffers = [&self.desk.mem, &self.desk.v, &self.desk.a];
        let [data, v, a] = buffers.map(|buffer| buffer.get(at).copied());
        Some(Byte { data: data?, v: v?, addressable: a? == 1 })
    }

    pub fn is_addressable(&self, k: u32) -> bool {
        self.byte(k.into()).is_some_and(|byte| byte.addressable)
    }

    /// The first seven sorts of a load: its top byte, and whether bits of the one below are undefined.
    fn loaded(&self, top: &Byte, below: bool) -> usize {
        match top.defined_top() {
            _ if self.reports_d => 6,
            2 => 4 + top.top(),
            bit if below || top.v != 0 => 2 + bit,
            bit => bit,
        }
    }
}

pub fn byte_loaded(step: &Step) -> usize {
    let access = Access::of(step);
    match access.byte(0) {
        Some(byte) if byte.addressable => access.loaded(&byte, false),
        Some(byte) => 7 + byte.top(),
        None => 9,
    }
}

pub fn half_loaded(step: &Step) -> usize {
    let access = Access::of(step);
    let is_addressable = |byte: &Byte| byte.addressable;
    let low = access.byte(0).filter(is_addressable);
    match (low, access.byte(1)) {
        _ if access.address == u32::MAX => 18,
        (Some(low), Some(high)) if high.addressable => access.loaded(&high, low.v != 0),
        (None, Some(high)) if high.addressable => 7 + high.defined_top(),
        (Some(low), Some(high)) => 10 + 3 * high.top() + low.defined_top(),
        (Some(_), None) => 16,
        (None, _) => 17,
    }
}

pub fn half_stored(step: &Step) -> usize {
    let access = Access::of(step);
    let [low, high] = [0, 1].map(|k| access.byte(k));
    let v = step.before.vregs[usize::from(step.row[1])];
    let [stored_low, stored_high] = [v & 0xFF, v & 0xFF00].map(|bits| bits != 0);
    match (low.is_some_and(|low| low.addressable), high.map(|high| high.addressable)) {
        _ if access.address == u32::MAX => 10,
        (true, Some(true)) if access.reports_d => 5,
        (true, Some(true)) => match (stored_low, stored_high) {
            (false, false) => usize::from(v != 0),
            (true, false) => 2,
            (false, true) => 3,
            (true, true) => 4,
        },
        (false, Some(true)) => 6,
        (true, Some(false)) => 7,
        (true, None) => 8,
        (false, _) => 9,
    }
}
