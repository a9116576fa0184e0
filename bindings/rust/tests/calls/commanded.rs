//! Outputs that are handed on as damper commands: each gate at its ends, and refusal 13. The cases
//! are worked out from document 02, L7.

use std::fs;

use uviktalik::numbers::{
    ACCEPTED, COMMAND_NONE, MAX_OUTPUT_LIST, MAX_STEPS, OUTPUT_WORDS, STATE_OUTPUTS,
};
use uviktalik::{raw, Cause, Command, CommandKind, Refusal, State, StopReason};

use crate::desk::Desk;
use crate::guarded::{Guarded, STALE, STALE_BYTE};

/// A command's kind, and the bits of its rate or its port. Unlike a comparison of floats, it tells
/// minus zero from zero.
type Handed = (CommandKind, u32);

const REFUSED: Result<Handed, Cause> = Err(Cause::WRONG_OUTPUTS);

fn words_of(command: Command) -> Handed {
    match command {
        Command::Bump(rate) => (CommandKind::BUMP, rate.to_bits()),
        Command::Rebound(rate) => (CommandKind::REBOUND, rate.to_bits()),
        Command::Preload(rate) => (CommandKind::PRELOAD, rate.to_bits()),
        Command::Blocked(port) => (CommandKind::BLOCKED, port),
    }
}

/// What both calls answer. The raw one writes its two places, zeros when it is refused, and nothing
/// else.
fn handed(outputs: &[u32], number: usize) -> Result<Handed, Cause> {
    let mut list = Guarded::holding(outputs, STALE);
    let (mut kind, mut bits) = (Guarded::new(1, STALE_BYTE), Guarded::new(1, STALE));
    let refusal = raw::command(list.lent(), number, kind.one(), bits.one());
    list.assert_guarded("the outputs");
    kind.assert_guarded("the kind");
    bits.assert_guarded("the bits");
    assert_eq!(list.lent(), outputs);

    let (kind, bits) = (*kind.one(), *bits.one());
    let safe = uviktalik::command(outputs, number);
    if refusal != ACCEPTED {
        let cause = Cause(refusal);
        assert_eq!((kind, bits), (COMMAND_NONE, 0));
        assert_eq!(safe, Err(Refusal { cause, index: 0 }));
        return Err(cause);
    }
    assert_eq!(safe.map(words_of), Ok((CommandKind(kind), bits)));
    Ok((CommandKind(kind), bits))
}

/// What is handed on of an output whose value lies in its port's gate.
fn passed(port: u32, value: u32) -> Result<Handed, Cause> {
    let kinds = [CommandKind::BUMP, CommandKind::REBOUND, CommandKind::PRELOAD];
    Ok((kinds[port as usize], value))
}

fn blocked(port: u32) -> Result<Handed, Cause> {
    Ok((CommandKind::BLOCKED, port))
}

const ONE: u32 = 0x3F80_0000;
const FORTY: u32 = 0x4220_0000;
const EIGHT_THOUSAND: u32 = 0x45FA_0000;

/// Values, and the ports from 0 on whose gates they lie in: all three, bump and rebound, or none.
const VALUES: [(&str, u32, u32); 29] = [
    ("0", 0, 3),
    ("minus 0", 0x8000_0000, 3),
    ("the least subnormal", 1, 3),
    ("the greatest subnormal", 0x007F_FFFF, 3),
    ("the least normal", 0x0080_0000, 3),
    ("1", ONE, 3),
    ("the float below 40", FORTY - 1, 3),
    ("40", FORTY, 3),
    ("the float above 40", FORTY + 1, 2),
    ("the float below 8000", EIGHT_THOUSAND - 1, 2),
    ("8000", EIGHT_THOUSAND, 2),
    ("the float above 8000", EIGHT_THOUSAND + 1, 0),
    ("the greatest finite", 0x7F7F_FFFF, 0),
    ("infinity", 0x7F80_0000, 0),
    ("the first signalling NaN", 0x7F80_0001, 0),
    ("the last signalling NaN", 0x7FBF_FFFF, 0),
    ("the first quiet NaN", 0x7FC0_0000, 0),
    ("the last quiet NaN", 0x7FFF_FFFF, 0),
    ("the negative subnormal nearest to 0", 0x8000_0001, 0),
    ("-0.0000001", 0xB3D6_BF95, 0),
    ("-1", 0xBF80_0000, 0),
    ("-40", 0xC220_0000, 0),
    ("-8000", 0xC5FA_0000, 0),
    ("the least finite", 0xFF7F_FFFF, 0),
    ("minus infinity", 0xFF80_0000, 0),
    ("the first signalling NaN, negative", 0xFF80_0001, 0),
    ("the last signalling NaN, negative", 0xFFBF_FFFF, 0),
    ("the first quiet NaN, negative", 0xFFC0_0000, 0),
    ("the last quiet NaN, negative", 0xFFFF_FFFF, 0),
];

#[test]
fn a_value_in_its_gate_is_a_rate_with_the_same_bits() {
    for (name, value, gates) in VALUES {
        for port in 0..=3 {
            let expected = if port < gates { passed(port, value) } else { blocked(port) };
            assert_eq!(handed(&[port, value], 0), expected, "{name} at port {port}");
        }
    }
}

#[test]
fn a_port_without_a_gate_is_blocked() {
    for port in 3..=7 {
        for (name, value, _) in VALUES {
            assert_eq!(handed(&[port, value], 0), blocked(port), "{name} at port {port}");
        }
    }
}

/// Every sign, exponent and beginning of a fraction, by Rust's own comparison of floats.
#[test]
fn gates_are_ranges_of_floats() {
    for upper in 0..=0xFFFF_u32 {
        for value in [0, 1, 0xFFFF].map(|lower| upper << 16 | lower) {
            let rate = f32::from_bits(value);
            for (port, highest) in [(0, 8000.0), (1, 8000.0), (2, 40.0)] {
                let inside = (0.0..=highest).contains(&rate);
                let expected = if inside { passed(port, value) } else { blocked(port) };
                let command = uviktalik::command(&[port, value], 0).expect("an output");
                assert_eq!(Ok(words_of(command)), expected, "{value:#010X} at port {port}");
            }
        }
    }
}

#[test]
fn a_number_counts_outputs_from_0() {
    let outputs = [0, ONE, 2, FORTY, 2, FORTY + 1, 7, ONE, 1, 0x8000_0000];
    assert_eq!(handed(&outputs, 0), passed(0, ONE));
    assert_eq!(handed(&outputs, 1), passed(2, FORTY));
    assert_eq!(handed(&outputs, 2), blocked(2));
    assert_eq!(handed(&outputs, 3), blocked(7));
    assert_eq!(handed(&outputs, 4), passed(1, 0x8000_0000));
    // Twice the last two, in a word of the machine, is 0 and -2.
    for number in [5, 9, 10, usize::MAX / 2, usize::MAX / 2 + 1, usize::MAX] {
        assert_eq!(handed(&outputs, number), REFUSED, "number {number}");
    }
}

#[test]
fn an_empty_list_has_no_output() {
    for number in [0, 1, usize::MAX / 2 + 1, usize::MAX] {
        assert_eq!(handed(&[], number), REFUSED, "number {number}");
    }
}

#[test]
fn a_list_has_whole_outputs_up_to_its_limit() {
    let zeros = vec![0; (1 << 16) + OUTPUT_WORDS];
    let last = MAX_OUTPUT_LIST / OUTPUT_WORDS - 1;
    assert_eq!((MAX_OUTPUT_LIST, last), (512, 255));
    for number in [0, 1, last] {
        assert_eq!(handed(&zeros[..MAX_OUTPUT_LIST], number), passed(0, 0), "number {number}");
    }
    assert_eq!(handed(&zeros[..MAX_OUTPUT_LIST], last + 1), REFUSED);
    assert_eq!(handed(&zeros[..MAX_OUTPUT_LIST - 2], last - 1), passed(0, 0));
    assert_eq!(handed(&zeros[..MAX_OUTPUT_LIST - 2], last), REFUSED);
    for words in [1, 3, 5, 511, 513, 514, 515, 1_024, zeros.len()] {
        for number in [0, 1, last, last + 1] {
            assert_eq!(handed(&zeros[..words], number), REFUSED, "number {number} of {words}");
        }
    }
}

#[test]
fn every_port_word_of_the_list_is_looked_at() {
    let most = [[7, u32::MAX]; 256].concat();
    for number in [0, 1, 254, 255] {
        assert_eq!(handed(&most, number), blocked(7), "number {number}");
    }
    for at in [0, 1, 128, 255] {
        for port in [8, 9, 0x100, 0x1_0000, 0x8000_0000, u32::MAX] {
            let mut outputs = most.clone();
            outputs[OUTPUT_WORDS * at] = port;
            for number in [0, 1, 128, 255] {
                assert_eq!(handed(&outputs, number), REFUSED, "port {port} at {at}, {number}");
            }
        }
    }
}

#[test]
fn places_that_no_run_wrote_are_left_out() {
    let list = [0, ONE, 9, 0];
    let with_outputs = |made| {
        let mut state = State::default();
        state.0[STATE_OUTPUTS] = made;
        state
    };
    assert_eq!(handed(&list, 0), REFUSED);
    assert_eq!(with_outputs(1).made_in(&list), [0, ONE]);
    assert_eq!(handed(with_outputs(1).made_in(&list), 0), passed(0, ONE));
    assert_eq!(uviktalik::command(with_outputs(1).made_in(&list), 0), Ok(Command::Bump(1.0)));
    assert_eq!(handed(with_outputs(1).made_in(&list), 1), REFUSED);
    assert_eq!(handed(with_outputs(0).made_in(&list), 0), REFUSED);
    for made in [2, 3, 0x8000_0001, u32::MAX] {
        assert_eq!(with_outputs(made).made_in(&list), list, "{made}");
    }
}

#[test]
fn the_outputs_of_a_run_are_handed_on() {
    let mut desk = Desk::of("examples/damper");
    desk.outputs.fill(STALE);
    assert_eq!(desk.check(MAX_STEPS), Ok(StopReason::STOPPED));
    assert_eq!((desk.state.reports(), desk.state.outputs()), (0, 7));
    let made = desk.state.made_in(&desk.outputs);
    let answers: Vec<Result<Handed, Cause>> = (0..8).map(|number| handed(made, number)).collect();
    let rates = [passed(0, 0x44BB_8000), passed(1, EIGHT_THOUSAND), passed(1, 0x8000_0000)];
    assert_eq!(answers[..3], rates);
    assert_eq!(answers[3..], [passed(2, FORTY), blocked(2), blocked(0), blocked(5), REFUSED]);
    assert_eq!(handed(&desk.outputs, 0), REFUSED);

    let commands = (0..7).map(|number| uviktalik::command(made, number).expect("an output"));
    let lines: Vec<String> = commands.map(|command| command.to_string()).collect();
    let expected = fs::read_to_string("../../examples/damper.commands").expect("its lines");
    assert_eq!(lines, expected.lines().collect::<Vec<_>>());
}

#[test]
fn a_command_that_is_not_blocked_has_a_rate() {
    for command in [Command::Bump(1.0), Command::Rebound(1.0), Command::Preload(1.0)] {
        assert_eq!(command.rate(), Some(1.0));
    }
    assert_eq!(Command::Blocked(2).rate(), None);
}
