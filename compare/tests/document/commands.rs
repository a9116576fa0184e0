//! Request L7 of document 02: what each output is as a command, what is blocked and what is refused. Each case is
//! tried on the independent commands and on the checker's.

use compare::checker;
use compare::commands;
use compare::types::Commander;

use crate::kit::*;

const COMMANDERS: [Commander; 2] = [commands::COMMANDER, checker::COMMANDER];

/// What lies in kind and bits before.
const LEFTOVER: (u8, u32) = (0xEE, 0xEEEE_EEEE);

/// The number, the kind and the bits.
fn answer(outputs: &[u32], number: usize) -> (u32, u8, u32) {
    let both = COMMANDERS.map(|commander| {
        let (list, (mut kind, mut bits)) = (outputs.to_vec(), LEFTOVER);
        let refusal = (commander.command)(&list, number, &mut kind, &mut bits);
        assert_eq!(list, outputs, "{}", commander.name);
        (refusal, kind, bits)
    });
    assert_eq!(both[0], both[1]);
    both[0]
}

/// Refused with 13, kind and bits 0.
fn refused(outputs: &[u32], number: usize) {
    assert_eq!(answer(outputs, number), (13, 0, 0), "number {number} of {outputs:x?}");
}

/// One output alone: it is handed on with its value's bits as this kind.
fn passes(port: u32, kind: u8, value: u32) {
    assert_eq!(answer(&[port, value], 0), (0, kind, value), "{value:#x} at port {port}");
}

/// One output alone: it is blocked, with the port.
fn blocked(port: u32, value: u32) {
    assert_eq!(answer(&[port, value], 0), (0, 4, port), "{value:#x} at port {port}");
}

/// The ports with a gate, their kinds, and the bits of their highest rates.
const GATES: [(u32, u8, u32); 3] = [(0, 1, 0x45FA_0000), (1, 2, 0x45FA_0000), (2, 3, 0x4220_0000)];

/// 8000 is 1.953125 times 2 to the 12th, 40 is 1.25 times 2 to the 5th.
#[test]
fn the_bits_of_the_highest_rates() {
    // exponents 12 and 5, each plus 127, above 23 bits; 0.953125 is 0xF4 / 0x100, 0.25 is 0x40 / 0x100
    assert_eq!(0x45FA_0000, (127 + 12) << 23 | 0xF4 << 15);
    assert_eq!(0x4220_0000, (127 + 5) << 23 | 0x40 << 15);
    passes(0, 1, 0x45FA_0000);
    passes(2, 3, 0x4220_0000);
}

#[test]
fn ports_0_to_2_are_bump_rebound_and_preload() {
    let one = 0x3F80_0000;
    for (port, kind, _) in GATES {
        passes(port, kind, one);
    }
    for port in 3..=7 {
        for value in [0, one, 0x8000_0000, 0xBF80_0000, 0x7FC0_0000, ONES] {
            blocked(port, value);
        }
    }
}

#[test]
fn ends_are_allowed() {
    for (port, kind, highest) in GATES {
        passes(port, kind, 0);
        passes(port, kind, highest - 1);
        passes(port, kind, highest);
        blocked(port, highest + 1);
    }
    // 8000.0005, 8000.5, 8001, 8192, 10000
    for value in [0x45FA_0001, 0x45FA_0400, 0x45FA_0800, 0x4600_0000, 0x461C_4000] {
        blocked(0, value);
        blocked(1, value);
    }
    // 40.000004, 40.5, 41, 64, 7999, 8000
    for value in [0x4220_0001, 0x4222_0000, 0x4224_0000, 0x4280_0000, 0x45F9_F800, 0x45FA_0000] {
        blocked(2, value);
    }
    // the same from 40.5 to 8000 at the others
    for value in [0x4222_0000, 0x4224_0000, 0x4280_0000, 0x45F9_F800] {
        passes(0, 1, value);
        passes(1, 2, value);
    }
}

#[test]
fn minus_zero_passes_with_its_bits() {
    for (port, kind, _) in GATES {
        passes(port, kind, 0x8000_0000);
        // the least negative number, the greatest negative subnormal, the least negative normal number
        for value in [0x8000_0001, 0x807F_FFFF, 0x8080_0000] {
            blocked(port, value);
        }
    }
}

#[test]
fn subnormals_are_rates() {
    for (port, kind, _) in GATES {
        for value in [1, 2, 0x1234, 40, 8000, 0x0040_0000, 0x007F_FFFF, 0x0080_0000] {
            passes(port, kind, value);
        }
    }
}

#[test]
fn negatives_and_infinities_are_outside_every_gate() {
    for (port, _, highest) in GATES {
        // -0.0000001, -1, minus the highest, the largest numbers of either sign, both infinities
        for value in [
            0xB3D6_BF95,
            0xBF80_0000,
            0x8000_0000 | highest,
            0x7F7F_FFFF,
            0xFF7F_FFFF,
            0x7F80_0000,
            0xFF80_0000,
        ] {
            blocked(port, value);
        }
    }
}

#[test]
fn what_is_not_a_number_is_blocked() {
    for (port, ..) in GATES {
        for bits in [0x7F80_0001, 0x7FBF_FFFF, 0x7FC0_0000, 0x7FC0_0001, 0x7FFF_FFFF] {
            blocked(port, bits);
            blocked(port, 0x8000_0000 | bits);
        }
    }
}

/// 1, 41 and NaN at port 0, 40 and 41 at port 2, 2 at port 1, 0 at port 5.
#[test]
fn each_output_by_its_number() {
    let list = [
        [0, 0x3F80_0000],
        [0, 0x4224_0000],
        [0, 0x7FC0_0000],
        [2, 0x4220_0000],
        [2, 0x4224_0000],
        [1, 0x4000_0000],
        [5, 0],
    ]
    .concat();
    let commands = [
        (0, 1, 0x3F80_0000),
        (0, 1, 0x4224_0000),
        (0, 4, 0),
        (0, 3, 0x4220_0000),
        (0, 4, 2),
        (0, 2, 0x4000_0000),
        (0, 4, 5),
    ];
    for (number, command) in commands.into_iter().enumerate() {
        assert_eq!(answer(&list, number), command, "number {number}");
    }
    for number in [7, 8, 13, 14, 15] {
        refused(&list, number);
    }
}

#[test]
fn refusal_13_an_odd_number_of_words() {
    for words in [1, 3, 5, 255, 257, 509, 511, 513] {
        for number in [0, words / 2] {
            refused(&vec![1; words], number);
        }
    }
    for words in [2, 4, 256, 510] {
        assert_eq!(answer(&vec![1; words], 0), (0, 2, 1));
    }
}

#[test]
fn refusal_13_more_than_512_words() {
    let list = [2, 0x4220_0000].repeat(40_000);
    for number in [0, 1, 128, 255] {
        assert_eq!(answer(&list[..512], number), (0, 3, 0x4220_0000));
    }
    for words in [513, 514, 516, 768, 1024, 65_536, 65_538, 66_048, 80_000] {
        for number in [0, 255, 256, words / 2 - 1] {
            refused(&list[..words], number);
        }
    }
}

#[test]
fn refusal_13_a_port_word_above_7() {
    for port in [8, 9, 16, 255, 256, 258, 0x1_0000, 0x8000_0000, 0x8000_0002, ONES] {
        refused(&[port, 0], 0);
        refused(&[0, 0, port, 0], 0);
        refused(&[port, 0, 0, 0], 1);
        refused(&[0, 0, port, 0, 0, 0], 2);
        // it is a value
        assert_eq!(answer(&[0, 0, 6, port], 0), (0, 1, 0));
        assert_eq!(answer(&[0, 0, 6, port], 1), (0, 4, 6));
    }
    let mut list = [7, ONES].repeat(256);
    assert_eq!(answer(&list, 255), (0, 4, 7));
    for place in 0..256 {
        list[2 * place] = 8;
        for number in [0, place, 255] {
            refused(&list, number);
        }
        list[2 * place] = 7;
    }
}

/// The list is that of the outputs made: [0, 1.0, 9, 0] is none, but its first two words are a bump of 1.
#[test]
fn only_the_outputs_made_are_the_list() {
    let lent = [0, 0x3F80_0000, 9, 0];
    refused(&lent, 0);
    assert_eq!(answer(&lent[..2], 0), (0, 1, 0x3F80_0000));
    refused(&lent[..2], 1);
}

#[test]
fn refusal_13_a_number_outside() {
    for number in [0, 1, usize::MAX] {
        refused(&[], number);
    }
    refused(&[1, 0], 1);
    for count in [1, 2, 255, 256] {
        let list = [1, 0x3F80_0000].repeat(count);
        assert_eq!(answer(&list, count - 1), (0, 2, 0x3F80_0000));
        for number in [count, count + 1, 2 * count, 256, 512, 0x1_0000, 0x8000_0000] {
            refused(&list, number);
        }
        for number in [usize::MAX, usize::MAX / 2, usize::MAX / 2 + 1, usize::MAX - count] {
            refused(&list, number);
        }
    }
}

#[cfg(target_pointer_width = "64")]
#[test]
fn a_number_of_which_32_bits_would_do_is_outside() {
    for number in [1 << 32, (1 << 32) + 1, 1 << 63, (1 << 63) + 1, !0 << 32] {
        refused(&[1, 0, 1, 0], number);
    }
}

#[test]
fn several_causes_are_one_refusal() {
    refused(&[8], 0);
    refused(&[0, 0, 8], 0);
    refused(&[8, 0], 1);
    refused(&vec![8; 513], 600);
    refused(&vec![9; 514], 0);
}
