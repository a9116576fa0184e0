//! The driver of the commands itself: its cases repeat, its words are plain, its sweep counts what passes, and it
//! finds commands that are wrong.

use compare::checker;
use compare::commanding::sweep::{self, Sweep};
use compare::commanding::{touched, try_case, Answer, Case, Cases, Tally};
use compare::commands::COMMANDER;
use compare::numbering::Numbered;
use compare::prng::Prng;
use compare::types::Commander;

const BOTH: [&Commander; 2] = [&checker::COMMANDER, &COMMANDER];

fn planted(fault: &str) -> &'static Commander {
    faults::planted_commander(fault).expect("a planted fault of the commands")
}

fn beside_checker(fault: &str) -> [&'static Commander; 2] {
    [&checker::COMMANDER, planted(fault)]
}

/// The first case in which two commanders fail, as it is printed.
fn first_failure(commanders: [&Commander; 2]) -> Option<String> {
    let cases = Cases::new(1);
    let mut numbers = 0..cases.counted() + 2000;
    let failure =
        numbers.find_map(|k| try_case(commanders, &cases, k, &mut Tally::default()).err());
    failure.map(|failure| failure.to_string())
}

#[test]
fn a_case_is_the_same_each_time() {
    let cases = Cases::new(7);
    for number in (0..cases.counted() + 2000).step_by(97) {
        assert!(cases.case(number) == cases.case(number), "case {number}");
    }
}

/// Kinds of which it is known that nothing is wrong, or that something is.
#[test]
fn only_damaged_lists_are_refused() {
    let cases = Cases::new(3);
    for number in cases.counted()..cases.counted() + 2000 {
        let (kind, mut case) = cases.case(number);
        let answer = case.answer_of(&COMMANDER).expect("an answer");
        match Cases::kinds()[kind] {
            name @ ("one at a gate" | "one of the outputs") => {
                assert_eq!(answer.number, 0, "case {number}, {name}");
            }
            name @ ("one cause" | "lists beyond 16 bits") => {
                let refused = Answer { number: 13, kind: 0, bits: 0 };
                assert_eq!(answer, refused, "case {number}, {name}");
            }
            _ => {}
        }
    }
}

/// No answer can be what lies in kind and bits before.
#[test]
fn leftovers_are_no_answer() {
    let cases = Cases::new(5);
    for number in (0..cases.counted() + 2000).step_by(31) {
        let (_, case) = cases.case(number);
        let (kind, bits) = (case.kind.part()[0], case.bits.part()[0]);
        assert!(kind > 4 && bits > 0x8000_0000, "case {number}");
    }
}

#[test]
fn a_difference_is_told_in_words() {
    for (fault, words) in [
        ("command_bump_below_8000", "  kind: checker 1, command_bump_below_8000 4"),
        ("command_refused_with_12", "  refusal number: checker 13, command_refused_with_12 12"),
        ("command_514_words", "  refusal number: checker 13, command_514_words 0"),
        ("command_blocked_with_port_plus_one", "  bits: checker 0x"),
        ("command_refused_bits_left", "  bits: checker 0x0, command_refused_bits_left 0x"),
        ("command_kind_left", ", command_kind_left "),
    ] {
        let failure = first_failure(beside_checker(fault)).expect(fault);
        let lines: Vec<&str> = failure.lines().collect();
        assert!(lines[0].starts_with("command: --seed 1 --commanded "), "{failure}");
        assert!(lines[1].starts_with("  outputs ["), "{failure}");
        assert!(lines[1].contains(" words, number "), "{failure}");
        assert!(lines[2].contains(words), "{failure}");
        assert_eq!(lines.len(), 3, "{failure}");
    }
}

/// A case that is printed is repeated by its number alone.
#[test]
fn what_is_printed_repeats_the_case() {
    let faulty = beside_checker("command_odd_511_accepted");
    let failure = first_failure(faulty).expect("it is found");
    let number = failure.split_whitespace().skip_while(|&word| word != "--commanded").nth(1);
    let number = number.and_then(|word| word.parse().ok()).expect("the case's number");
    let again = try_case(faulty, &Cases::new(1), number, &mut Tally::default());
    assert_eq!(again.err().map(|failure| failure.to_string()), Some(failure));
    assert!(try_case(BOTH, &Cases::new(1), number, &mut Tally::default()).is_ok());
}

fn panics(_: &[u32], _: usize, _: &mut u8, _: &mut u32) -> u32 {
    panic!("no commands")
}

#[test]
fn a_commander_that_panics_is_found() {
    let panicking = Commander { name: "panicking", command: panics };
    let failure = first_failure([&COMMANDER, &panicking]).expect("it is found");
    assert!(failure.ends_with("  the call itself: answered, panicked: no commands"), "{failure}");
    let failure = sweep::try_word([&COMMANDER, &panicking], 7).expect("it is found").to_string();
    assert!(failure.ends_with("  panicked: no commands"), "{failure}");
}

#[test]
fn what_is_touched_beside_the_answer_is_told_in_words() {
    let case = Case::new(vec![1, 2, 3, 4], 1, &mut Prng::of_case(0, 0, 0));
    assert_eq!(touched("commands", &case, &case), None);
    let words = |touch: fn(&mut Case)| {
        let mut left = case.clone();
        touch(&mut left);
        touched("commands", &case, &left).unwrap_or_default()
    };
    assert_eq!(words(|left| left.kind.part_mut()[0] ^= 1), "");
    assert_eq!(words(|left| left.bits.part_mut()[0] ^= 1), "");
    for (what, touch) in [
        ("output word 2: ", (|left| left.outputs.part_mut()[2] ^= 1) as fn(&mut Case)),
        ("guard 63 behind the last output word: ", |left| *last(left.outputs.all_mut()) ^= 1),
        ("guard 0 before the first kind: ", |left| left.kind.all_mut()[0] ^= 1),
        ("guard 63 behind the last kind: ", |left| *last(left.kind.all_mut()) ^= 1),
        ("guard 0 before the first bits: ", |left| left.bits.all_mut()[0] ^= 1),
        ("guard 63 behind the last bits: ", |left| *last(left.bits.all_mut()) ^= 1),
    ] {
        let found = words(touch);
        assert!(found.starts_with(what) && found.contains(", as lent 0x"), "{what}: {found}");
    }
}

fn last<T>(all: &mut [T]) -> &mut T {
    all.last_mut().expect("guards")
}

/// One of 1,000,003 words, 8000 among them.
fn through_8000() -> Sweep {
    Sweep { stride: 1_000_003, first: 0x45FA_0000 % 1_000_003 }
}

#[test]
fn a_sweep_counts_what_passes() {
    for sweep in [through_8000(), Sweep { stride: 999_999, first: 0x8000_0000 % 999_999 }] {
        let swept = sweep.swept(BOTH);
        assert_eq!((swept.differing(), swept.failures()), (0, Vec::new()));
        assert_eq!(swept.calls(), 3 * ((1 << 32) - sweep.first).div_ceil(sweep.stride));
    }
}

/// Both have the fault, so that they do not differ, and the count shows it. 8000 is word 1,174, from 0, of the
/// sweep, so 1,175 words are to pass at port 0.
#[test]
fn a_sweep_that_counts_otherwise_is_told_in_words() {
    assert_eq!(0x45FA_0000, 1_174 * 1_000_003 + 8_382);
    let faulty = planted("command_bump_below_8000");
    let failures = through_8000().swept([faulty; 2]).failures();
    let words = "sweep: of 4295 words 1174 pass at port 0 and 3121 are blocked, not 1175 and 3120";
    assert_eq!(failures, [words]);
}

#[test]
fn a_word_that_differs_in_a_sweep_is_told_in_words() {
    let faulty = beside_checker("command_rebound_below_8000");
    let [failure] = &through_8000().swept(faulty).failures()[..] else {
        panic!("at one gate, and the checker's count is right");
    };
    let words = "sweep: --swept 1174011904\n  output [1, 45fa0000]\n  \
                 kind: checker 2, command_rebound_below_8000 4";
    assert_eq!(failure, words);
    let again = sweep::try_word(faulty, 1_174_011_904).expect("it differs again");
    assert_eq!(again.to_string(), words);
    assert!(sweep::try_word(faulty, 1_174_011_903).is_none());
    let (_, differing, failures) = sweep::about_ends(faulty);
    assert_eq!((differing, &failures[..]), (1, &[words.to_string()][..]));
}

#[test]
fn sorts_that_were_never_met_are_missed() {
    let missing = Tally::default().missing();
    for what in [
        "commands, port 0, counted: minus 0",
        "commands, port 2, drawn: next above it",
        "commands, port 7, counted: signalling NaN, sign set",
        "commands, preload, of three outputs and more, drawn: middle",
        "commands, accepted, counted: 256",
        "commands, refused for one cause, drawn: 514 words",
        "commands, refused for one cause, counted: twice the number wraps",
        "commands, refused for several, drawn: a port and the number",
    ] {
        assert!(missing.contains(&what.to_string()), "{what}");
    }
    assert_eq!(missing.len(), 2 * (8 * 16 + 4 * 3 + 4 + 21 + 8));
    assert_eq!(Case::FAMILIES.len() + Case::KINDS.len(), Cases::kinds().len());
}
