//! The bare machine, and both machines on programs drawn at random.

use compare::bare::Bare;
use compare::interpreter::read;

use crate::kit::*;

#[test]
fn bare_machine_traps_before_the_step() {
    let code = [(1, 1, 0, LIT, 8), (18, 0, 1, 0, 2), (14, 2, 1, 0, 2), STOP];
    let image = image(16, &code, &[[8, 4, 1]], &[1, 2, 3, 4]);
    let mut bare = Bare::begin(&image, &[9; 16], &[0x77; 16]);
    assert_eq!(bare.run(&image, 1, 1), 3);
    assert_eq!(bare.run(&image, 0, 0), 4);
    assert_eq!(bare.run(&image, 1, 100), 6);
    assert_eq!((bare.index, bare.steps, bare.regs[2]), (2, 2, 9));
    assert_eq!(bare.outputs, [(2, 8)]);
    assert_eq!(bare.mem[7..13], [0x77, 1, 2, 3, 4, 0x77]);
    bare.regs[1] = 6;
    assert_eq!(bare.run(&image, 1, 100), 1);
    assert_eq!((bare.index, bare.steps, bare.regs[2]), (3, 3, 0x0403_0201));
}

#[test]
fn bare_machine_does_not_wrap_an_access() {
    let words = [(14, ONES - 1), (16, ONES), (13, 4), (15, ONES), (14, 1)];
    let halves = [21, 23, 24].map(|op| [3, 4, ONES - 1, ONES].map(|address| (op, address)));
    for (op, address) in [&words[..], &halves.concat(), &[(22, 4), (22, ONES)]].concat() {
        let image = image(4, &[(op, 1, 15, 0, address)], &[[0, 4, 2]], &[]);
        let mut bare = Bare::begin(&image, &[0; 16], &[0; 4]);
        assert_eq!(bare.run(&image, 0, 5), 6);
        assert_eq!(bare.steps, 0);
    }
}

/// Half words and signed loads (document 02, L1), of which the bare machine has the data alone.
#[test]
fn bare_machine_widens_by_sign() {
    let data = [0x7F, 0x80, 0x00, 0x80, 0xFF, 0x7F];
    let loads = [
        (22, 0, 0x7F),
        (22, 1, 0xFFFF_FF80),
        (21, 2, 0x8000),
        (23, 2, 0xFFFF_8000),
        (23, 4, 0x7FFF),
        (21, 4, 0x7FFF),
        (23, 1, 0x80), // bytes 0x80 and 0x00
        (23, 3, 0xFFFF_FF80),
        (21, 3, 0xFF80),
    ];
    for (op, address, word) in loads {
        let image = image(6, &[(op, 1, 15, 0, address)], &[[0, 6, 1]], &data);
        let mut bare = Bare::begin(&image, &[0; 16], &[0; 6]);
        assert_eq!((bare.run(&image, 0, 1), bare.regs[1]), (2, word));
        assert_eq!((bare.index, bare.steps, &bare.mem[..]), (1, 1, &data[..]));
    }
    let image = image(6, &[(24, 1, 15, 0, 1)], &[[1, 2, 2]], &[]);
    let mut bare = Bare::begin(&image, &[0; 16], &[9; 6]);
    bare.regs[1] = 0xAABB_CCDD;
    assert_eq!(bare.run(&image, 0, 1), 2);
    assert_eq!((bare.mem, bare.regs[1]), (vec![9, 0xDD, 0xCC, 9, 9, 9], 0xAABB_CCDD));
}

/// Bytes 0 and 3 of four are addressable: every half word traps, and so does a byte between.
#[test]
fn bare_machine_traps_at_half_an_access() {
    let halves = [21, 23, 24].map(|op| [0, 1, 2].map(|address| (op, address)));
    for (op, address) in [&halves.concat()[..], &[(22, 1), (22, 2)]].concat() {
        let image = image(4, &[(op, 1, 15, 0, address)], &[[0, 1, 2], [3, 1, 1]], &[0x80]);
        let mut bare = Bare::begin(&image, &[0; 16], &[0x77; 4]);
        bare.regs[1] = 5;
        assert_eq!(bare.run(&image, 0, 5), 6);
        assert_eq!((bare.index, bare.steps, bare.regs[1]), (0, 0, 5));
        assert_eq!(bare.mem, [0x77, 0x77, 0x77, 0x80]);
    }
}

/// A small generator of words for the tests below.
struct Dice(u64);

impl Dice {
    fn roll(&mut self) -> u32 {
        self.0 = self.0.wrapping_mul(6364136223846793005).wrapping_add(1442695040888963407);
        (self.0 >> 33) as u32
    }

    fn below(&mut self, limit: u32) -> u32 {
        self.roll() % limit
    }

    fn instruction(&mut self, n: u32) -> Ins {
        let (d, a, b) = (self.below(4) as u8, self.below(4) as u8, self.below(4) as u8);
        let a = if self.below(3) == 0 { 15 } else { a };
        match 1 + self.below(24) as u8 {
            1 => (1, d, 0, LIT, self.below(24)),
            op @ 2..=12 if self.below(2) == 0 => (op, d, a, b, 0),
            op @ 2..=12 => (op, d, a, LIT, self.below(40)),
            op @ (13..=16 | 21..=24) => (op, d, a, 0, self.below(18)),
            17 => (17, 0, a, 0, self.below(n)),
            18 => (18, 0, a, 0, self.below(8)),
            op => (op, 0, 0, 0, self.below(12) | (1 + self.below(4)) << 16),
        }
    }
}

/// Demand 3's claim, and the totality of the interpreter, on some thousands of small images.
#[test]
fn bare_machine_agrees_while_nothing_is_reported() {
    let mut dice = Dice(1);
    let mut quiet = 0;
    for _ in 0..20_000 {
        let n = 1 + dice.below(12);
        let code: Vec<Ins> = (0..n).map(|_| dice.instruction(n)).collect();
        let image = image(16, &code, &[[0, 8, 1], [8, 6, 2]], &[7; 8]);
        let regs: [u32; 16] = std::array::from_fn(|_| dice.below(20));
        let mut kit = Kit::new(image.clone(), regs);
        kit.outputs.truncate(2 * dice.below(5) as usize);
        let mut bare = Bare::begin(&image, &regs, &[0x99; 16]);
        for _ in 0..30 {
            let reason = kit.run(1);
            if kit.state.reports != 0 {
                break;
            }
            quiet += 1;
            assert_eq!(bare.run(&image, kit.outputs.len() / 2, 1), reason);
            assert_eq!((bare.index, bare.steps), (kit.state.index, kit.state.steps));
            for r in 0..16 {
                assert_eq!((bare.regs[r] ^ kit.state.regs[r]) & !kit.state.vregs[r], 0);
            }
            for k in 0..16 {
                assert_eq!(bare.addressable[k], kit.a[k] == 1);
                assert!(!bare.addressable[k] || (bare.mem[k] ^ kit.mem[k]) & !kit.v[k] == 0);
            }
            let made: Vec<(u32, u32)> =
                kit.outputs.chunks(2).map(|o| (o[0], o[1])).take(bare.outputs.len()).collect();
            assert_eq!(
                (kit.state.outputs as usize, made),
                (bare.outputs.len(), bare.outputs.clone())
            );
        }
    }
    assert!(quiet > 50_000, "{quiet}");
}

/// Spoiled images, wild states, buffers and lists: no panic, and a refusal touches nothing.
#[test]
fn nothing_panics() {
    let mut dice = Dice(2);
    let odd =
        [0, 1, 2, 3, 15, 16, 255, 256, 0xFFFF, 0x1_0000, 1_000_000, 0x8000_0000, ONES - 1, ONES];
    for _ in 0..40_000 {
        let n = 1 + dice.below(4);
        let code: Vec<Ins> = (0..n).map(|_| dice.instruction(n)).collect();
        let mut kit = Kit::new(image(16, &code, &[[0, 8, 1], [8, 6, 2]], &[7; 8]), [0; 16]);
        for _ in 0..dice.below(3) {
            let at = 4 * dice.below(kit.image.len() as u32 / 4) as usize;
            kit.image = with_word(&kit.image, at, odd[dice.below(14) as usize]);
        }
        kit.image.truncate(kit.image.len() - dice.below(40).saturating_sub(38) as usize);
        let mut wild =
            || if dice.below(8) == 0 { Some(odd[dice.below(14) as usize]) } else { None };
        kit.state.index = wild().unwrap_or(0);
        kit.state.steps = wild().unwrap_or(500);
        kit.state.outputs = wild().unwrap_or(0);
        kit.state.reports = wild().unwrap_or(1000);
        let budget = wild().unwrap_or(20);
        kit.a[3] = wild().unwrap_or(1) as u8;
        kit.regs_at_random(&mut dice);
        let before = kit.clone();
        let ran = kit.try_run(budget);
        if ran.number != 0 {
            assert_eq!((ran.reason, ran.state), (0, before.state));
            assert_eq!(kit, before);
        }
        let state = before.state;
        let began = kit.begin(&state.regs);
        assert_eq!(began.number == 0, answer(&kit.image).0 == 0 && read(&kit.image).0.m == 16);
    }
}

impl Kit {
    fn regs_at_random(&mut self, dice: &mut Dice) {
        for r in 0..16 {
            self.state.regs[r] = dice.roll() << 1 | dice.below(2);
            self.state.vregs[r] = if dice.below(2) == 0 { 0 } else { dice.roll() };
        }
    }
}
