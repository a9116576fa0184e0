//! A call writes what it is lent and nothing beside it, and all that it has to write.

use uviktalik::numbers::{
    ACCEPTED, HEADER_WORDS, MAX_OUTPUT_LIST, MAX_REPORT_LIST, MAX_STEPS, REASON_NONE, STATE_WORDS,
};
use uviktalik::{raw, Buffers, Lists};

use crate::desk::{image, registers};
use crate::guarded::{Guarded, STALE, STALE_BYTE, STALE_SIZE};

/// All that can be lent to a call, with stale words in it.
struct Desk {
    image: Guarded<u8>,
    header: Guarded<u32>,
    code: Guarded<usize>,
    regs: Guarded<u32>,
    state: Guarded<u32>,
    mem: Guarded<u8>,
    vbits: Guarded<u8>,
    abits: Guarded<u8>,
    reports: Guarded<u32>,
    outputs: Guarded<u32>,
    reason: Guarded<u8>,
    fault: Guarded<usize>,
}

impl Desk {
    fn new(bytes: &[u8], m: usize) -> Desk {
        Desk {
            image: Guarded::holding(bytes, STALE_BYTE),
            header: Guarded::new(HEADER_WORDS, STALE),
            code: Guarded::new(2, STALE_SIZE),
            regs: Guarded::holding(&registers(m as u32), STALE),
            state: Guarded::new(STATE_WORDS, STALE),
            mem: Guarded::new(m, STALE_BYTE),
            vbits: Guarded::new(m, STALE_BYTE),
            abits: Guarded::new(m, STALE_BYTE),
            reports: Guarded::new(MAX_REPORT_LIST, STALE),
            outputs: Guarded::new(MAX_OUTPUT_LIST, STALE),
            reason: Guarded::new(1, STALE_BYTE),
            fault: Guarded::new(1, STALE_SIZE),
        }
    }

    fn read(&mut self) -> u8 {
        let number =
            raw::read(self.image.lent(), self.header.array(), self.code.array(), self.fault.one());
        self.assert_guarded("reading");
        number
    }

    fn begin(&mut self) -> u8 {
        let mut buffers =
            Buffers { mem: self.mem.lent(), vbits: self.vbits.lent(), abits: self.abits.lent() };
        let (state, fault) = (self.state.array(), self.fault.one());
        let number = raw::begin(self.image.lent(), self.regs.array(), &mut buffers, state, fault);
        self.assert_guarded("beginning");
        number
    }

    fn run(&mut self, budget: u32) -> u8 {
        let mut buffers =
            Buffers { mem: self.mem.lent(), vbits: self.vbits.lent(), abits: self.abits.lent() };
        let mut lists = Lists { reports: self.reports.lent(), outputs: self.outputs.lent() };
        let (state, reason, fault) = (self.state.array(), self.reason.one(), self.fault.one());
        let image = self.image.lent();
        let number = raw::run(image, state, &mut buffers, &mut lists, budget, reason, fault);
        self.assert_guarded("a run");
        number
    }

    fn assert_guarded(&self, call: &str) {
        let what = |name: &str| format!("{name}, after {call}");
        self.image.assert_guarded(&what("image"));
        self.header.assert_guarded(&what("header"));
        self.code.assert_guarded(&what("code"));
        self.regs.assert_guarded(&what("regs"));
        self.state.assert_guarded(&what("state"));
        self.mem.assert_guarded(&what("mem"));
        self.vbits.assert_guarded(&what("vbits"));
        self.abits.assert_guarded(&what("abits"));
        self.reports.assert_guarded(&what("reports"));
        self.outputs.assert_guarded(&what("outputs"));
        self.reason.assert_guarded(&what("reason"));
        self.fault.assert_guarded(&what("fault"));
    }
}

#[test]
fn accepted_calls_write_inside_what_they_are_lent() {
    for name in [
        "examples/incident",
        "examples/copy",
        "tests/longest",
        "tests/longest_before",
        "tests/many",
    ] {
        let bytes = image(name);
        let m = uviktalik::read(&bytes).expect(name).m as usize;
        let mut desk = Desk::new(&bytes, m);
        assert_eq!(desk.read(), ACCEPTED, "{name}");
        assert!(!desk.header.lent().contains(&STALE), "{name}");
        assert!(!desk.code.lent().contains(&STALE_SIZE), "{name}");
        assert_eq!(desk.begin(), ACCEPTED, "{name}");
        assert!(!desk.state.lent().contains(&STALE), "{name}");
        assert!(!desk.vbits.lent().contains(&STALE_BYTE), "{name}");
        assert!(!desk.abits.lent().contains(&STALE_BYTE), "{name}");
        for budget in [0, 1, 500, MAX_STEPS / 2] {
            (*desk.reason.one(), *desk.fault.one()) = (STALE_BYTE, STALE_SIZE);
            assert_eq!(desk.run(budget), ACCEPTED, "{name}");
            assert!((1..=4).contains(desk.reason.one()), "{name}");
            assert_eq!(*desk.fault.one(), 0, "{name}");
        }
        assert_eq!(desk.image.lent(), bytes, "{name}");
        assert_eq!(*desk.regs.array(), registers(m as u32), "{name}");
    }
}

#[test]
fn refused_calls_leave_what_they_should() {
    for name in [
        "tests/empty",
        "tests/instruction",
        "tests/region",
        "tests/one_byte_more",
        "tests/one_byte_less",
    ] {
        let mut desk = Desk::new(&image(name), 16);
        let index = uviktalik::read(&image(name)).expect_err(name).index;
        assert_ne!(desk.run(7), ACCEPTED, "{name}");
        assert!(desk.state.all(STALE) && desk.reason.all(REASON_NONE), "{name}");
        assert_eq!(std::mem::replace(desk.fault.one(), STALE_SIZE), index, "{name}");
        assert_ne!(desk.begin(), ACCEPTED, "{name}");
        assert!(desk.state.all(0), "{name}");
        assert_eq!(std::mem::replace(desk.fault.one(), STALE_SIZE), index, "{name}");
        assert_ne!(desk.read(), ACCEPTED, "{name}");
        assert!(desk.header.all(0) && desk.code.all(0), "{name}");
        assert_eq!(*desk.fault.one(), index, "{name}");
        assert!(desk.mem.all(STALE_BYTE), "{name}");
        assert!(desk.vbits.all(STALE_BYTE) && desk.abits.all(STALE_BYTE), "{name}");
        assert!(desk.reports.all(STALE) && desk.outputs.all(STALE), "{name}");
    }
}
