//! The driver itself: its images are those of document 01, its cases repeat, its words are plain.

use compare::alarms::teeth::{shares, MOST_UNDEFINED, SHARE};
use compare::alarms::{self, Case, Cases, Stepper, Tally, OPS};
use compare::calls;
use compare::cases::Call;
use compare::claim;
use compare::compare::compare;
use compare::coverage::Coverage;
use compare::former;
use compare::frame::Frame;
use compare::images::{hex, op, set_word, Image, Operand, Region, Row, UNDEFINED};
use compare::interpreter;
use compare::plan::Plan;
use compare::prng::Prng;
use compare::types::{Buffers, Engine, Lists, Ran, State};

#[test]
fn the_builder_writes_the_image_of_document_01() {
    let rows = vec![
        Row::copy(0, Operand::Literal(8)),
        Row::access(op::LD32, 1, 0, 0),
        Row::emit(1, 2),
        Row::stop(),
    ];
    let regions = vec![Region { start: 8, length: 4, kind: UNDEFINED }];
    let image = Image::new(16, rows, regions, &mut Prng::of_case(0, 0, 0));
    let expected = "54554e31 10000000 04000000 20000000 01000000 40000000 00000000 4c000000 \
                010000ff08000000 0e01000000000000 1200010002000000 0000000000000000 \
                08000000 04000000 02000000";
    assert_eq!(hex(&image.bytes()), expected.replace(' ', ""));
}

#[test]
fn a_case_is_the_same_each_time() {
    let plan = Plan::new(7);
    for number in (0..plan.counted() + 2000).step_by(997) {
        let (left, right) = (plan.case(number), plan.case(number));
        assert!(left.0 == right.0 && left.1.desk == right.1.desk, "case {number}");
        assert!(left.1.calls == right.1.calls, "case {number}");
    }
}

#[test]
fn only_damaged_images_are_refused() {
    let plan = Plan::new(3);
    for number in plan.counted()..plan.counted() + 2000 {
        let (kind, mut case) = plan.case(number);
        let name = Plan::kinds()[kind];
        let answer = calls::make(&interpreter::ENGINE, &mut case.desk, Call::Read);
        if !name.contains("damaged") && name != "raw bytes" {
            assert_eq!(answer.refusal(), Some((0, 0)), "case {number}, {name}");
        }
        if name == "d damaged to register 15" {
            assert_ne!(answer.refusal(), Some((0, 0)), "case {number}, {name}");
        }
    }
}

fn forgetful_run(image: &[u8], state: &State, buffers: Buffers, lists: Lists, budget: u32) -> Ran {
    let mut ran = (interpreter::ENGINE.run)(image, state, buffers, lists, budget);
    ran.state.vregs[3] ^= 0xFF;
    ran
}

#[test]
fn a_difference_is_told_in_words() {
    let forgetful = Engine { name: "forgetful", run: forgetful_run, ..interpreter::ENGINE };
    let plan = Plan::new(1);
    let engines = [&interpreter::ENGINE, &forgetful];
    let found = (0..10).find_map(|k| compare(engines, &plan, k, &mut Coverage::default()));
    let words = found.expect("every run differs").difference;
    assert!(words.starts_with("register 3's V: interpreter 0x"), "{words}");
    assert!(words.contains(", forgetful 0x"), "{words}");
}

#[test]
fn register_15_is_kept_unless_its_data_change_or_other_bits_are_undefined() {
    let given = Frame { data: 7, v: 0x81 };
    let left = |data, v| given.unkept(Frame { data, v });
    assert_eq!([left(7, 0x81), left(7, 0)], [None, None]);
    assert_eq!(left(6, 0x81).as_deref(), Some("register 15 was 0x7, is 0x6"));
    assert_eq!(left(6, 0).as_deref(), Some("register 15 was 0x7, is 0x6"));
    for v in [0x80, 0x83, u32::MAX] {
        assert_eq!(left(7, v), Some(format!("register 15's V was 0x81, is {v:#x}")));
    }
    let begun = Frame::begun(&[7; 16]);
    assert!(begun.unkept(Frame { data: 7, v: 0 }).is_none());
    assert!(begun.unkept(Frame { data: 7, v: 1 }).is_some());
}

/// M, N and D of the example, which is then no image any more, but that of M alone.
#[test]
fn sizes_above_the_former_limits_are_told_apart() {
    let (_, case) = Plan::new(1).case(0);
    let image = case.desk.image;
    let with = |at, word| {
        let mut other = image.clone();
        set_word(&mut other, at, word);
        former::is_above(&other)
    };
    assert!(!former::is_above(&image) && !former::is_above(&image[..31]));
    for (at, limit) in [(4, 4096), (8, 512), (24, 4096)] {
        assert_eq!([with(at, limit), with(at, limit + 1), with(at, u32::MAX)], [false, true, true]);
    }
    assert!(!with(16, 33) && !with(12, u32::MAX));
    let mut other = image.clone();
    set_word(&mut other, 4, 4097);
    other[0] ^= 1;
    assert!(!former::is_above(&other));
}

/// The interpreter in the checker's place answers as before, and a faulty one does not.
#[test]
fn answers_other_than_before_are_told_in_words() {
    let plan = Plan::new(1);
    let first = |engine: &Engine| {
        let mut tally = former::Tally::default();
        let mut failures = (0..2000).map(|k| former::try_case(engine, &plan, k, &mut tally).err());
        let found = failures.find_map(|found| found.map(|found| found.difference));
        (found, tally.cases)
    };
    assert_eq!(first(&interpreter::ENGINE), (None, 2000));
    assert_eq!(first(planted("n_still_512")), (None, 2000));
    let (found, cases) = first(planted("mov_defined"));
    let found = found.expect("it is found");
    assert!(found.contains("'s V: mov_defined 0x0, limits_of_document_01 0x"), "{found}");
    assert!(cases < 2000);
    assert_eq!(former::Tally::default().missing().len(), 7);
}

fn planted(fault: &str) -> &'static Engine {
    faults::planted(fault).expect("a planted fault")
}

/// Both engines have the fault, so that they do not differ.
#[test]
fn what_both_engines_make_of_register_15_is_told_in_words() {
    let plan = Plan::new(1);
    let first = |fault| {
        let engines = [planted(fault); 2];
        let mut found = (0..2000).map(|k| compare(engines, &plan, k, &mut Coverage::default()));
        found.find_map(|found| found.map(|found| found.difference))
    };
    for (fault, words) in [
        ("begin_register_15", "register 15's V was 0x0, is 0xffffffff"),
        ("frame_begun_with_m", "register 15 was 0x"),
        ("frame_set_by_each_run", "register 15 was 0x"),
        ("frame_counts_reports", "register 15 was 0x"),
        ("frame_gathers_v", "register 15's V was 0x"),
        ("frame_written", "register 15 was 0x"),
    ] {
        let found = first(fault).expect(fault);
        assert!(found.starts_with(words), "{fault}: {found}");
    }
    assert_eq!(first("frame_uncleared"), None);
    assert_eq!(first("mov_defined"), None);
}

/// The words of the first claim case in which the fault, put in the checker's place, fails with such.
fn claim_failure(fault: &str, words: &str) -> Option<String> {
    let faulty = planted(fault);
    let (calls, tally) = (claim::MOST_FAULTY_CALLS, &mut claim::Tally::default());
    let failures = (0..2000).filter_map(|k| claim::try_case(faulty, 1, k, calls, tally).err());
    let mut failures = failures.map(|failure| failure.to_string());
    failures.find(|failure| failure.contains(words))
}

#[test]
fn register_15_that_is_not_kept_breaks_the_claim() {
    for (fault, words) in [
        ("begin_register_15", "after 0 steps: register 15: checker, register 15's V was 0x0, is"),
        ("frame_counts_reports", ": register 15: checker, register 15 was 0x"),
        ("frame_written", ": register 15: checker, register 15 was 0x"),
        ("frame_written_by_ld8", ": register 15: checker, register 15 was 0x"),
        ("frame_gathers_v", ": register 15: checker, register 15's V was 0x0, is 0x"),
        ("frame_results_dropped", ": register 15: bare machine, register 15 was 0x"),
        ("frame_results_dropped", "the beginning gave (0, 0), not (5, "),
        ("frame_index_nought", "the beginning gave (5, 0), not (5, "),
        ("frame_stores_refused", "the beginning gave (5, "),
    ] {
        assert!(claim_failure(fault, words).is_some(), "{fault}: {words}");
    }
    assert_eq!(claim_failure("frame_highest_index", ""), None);
}

#[test]
fn claims_that_leave_something_out_are_empty() {
    let mut tally = claim::Tally::with_needs();
    for k in 0..200 {
        let calls = claim::MOST_CALLS;
        assert!(claim::try_case(&interpreter::ENGINE, 1, k, calls, &mut tally).is_ok());
    }
    assert_eq!((tally.programs, tally.refused_images), (200, 200));
    assert!(!tally.is_empty());
    tally.refused_images -= 1;
    assert!(tally.is_empty());
    tally.refused_images += 1;
    assert!(!tally.is_empty());
    tally.large = 0;
    assert!(tally.is_empty());
    tally.large = 1;
    tally.frames_reported = 0;
    assert!(tally.is_empty());
}

#[test]
fn ops_and_sorts_that_were_never_met_are_missed() {
    let missing = Coverage::default().missing();
    for what in [
        "op ST16, drawn",
        "LDS8, counted: unaddressable over a 1",
        "LDS16, drawn: undefined top bit 1",
        "ST16, drawn: high byte at M",
        "register 15 as d, refused by reading, counted: MOV",
        "register 15 as d, refused by running, drawn: LDS16",
        "register 14 as d, drawn: LD8",
        "register 15, counted: stored by ST16",
        "register 15, drawn: B of a sum",
        "sizes, reading, drawn: N 2,049 refused with 3",
        "sizes, running, counted: 7 where 3 was due",
        "large images, drawn: step at row 2,047",
        "large images, counted: load across 4,096",
    ] {
        assert!(missing.contains(&what.to_string()), "{what}");
    }
}

#[test]
fn an_alarm_case_is_the_same_each_time() {
    let cases = Cases::new(7);
    for number in (0..cases.counted() + 2000).step_by(997) {
        let (left, right) = (cases.case(number), cases.case(number));
        assert!(left.0 == right.0 && left.1.image() == right.1.image(), "case {number}");
        assert!(left.1.state == right.1.state, "case {number}");
        assert!(left.1.fillings() == right.1.fillings(), "case {number}");
    }
}

#[test]
fn a_wrong_alarm_is_told_in_words() {
    let cases = Cases::new(1);
    let first = |fault| {
        let mut stepper = Stepper::new(planted(fault));
        let mut failure =
            |k| alarms::try_case(&mut stepper, &cases, k, &mut Tally::default()).err();
        (0..2000).find_map(&mut failure).expect("it is found").to_string()
    };
    let words = first("xor_all_ones");
    assert!(words.starts_with("alarm: --seed 1 --alarm "), "{words}");
    assert!(words.contains("  XOR, x 0x"), "{words}");
    assert!(words.contains(": called undefined 0xffffffff, varies 0x"), "{words}");
    assert!(words.ends_with(": too much"), "{words}");
    assert!(first("add_no_carry").ends_with(": too little"));
    assert!(first("refusal_11_outputs_at_places").ends_with(": no run of one step"));
    assert!(first("eq_defined_bits").ends_with(": the data depend on V"));
}

#[test]
fn alarms_that_were_never_met_are_missed() {
    let missing = Tally::default().missing();
    assert!(missing.contains(&"EQ, counted: settled".to_string()));
    assert!(missing.contains(&"SAR, drawn: an undefined top bit copied".to_string()));
    assert!(!missing.contains(&"MOV, drawn: d is a".to_string()));
}

#[test]
fn ways_to_be_wrong_that_no_fault_has_are_missed() {
    let unfound = alarms::teeth::unfound(std::iter::empty());
    assert_eq!(unfound.len(), 8 * 2 + 2);
    assert!(unfound.contains(&"MOV, too much".to_string()));
    assert!(unfound.contains(&"SUB, too little".to_string()));
    assert!(!unfound.contains(&"SUB, too much".to_string()));
}

#[test]
fn each_op_has_its_share_of_the_cases_for_faults() {
    let cases = Cases::new(1);
    let shares = shares(&cases, 0..cases.counted());
    for op in OPS {
        let share: Vec<&Case> = shares.iter().filter(|case| case.row.op == op).collect();
        assert_eq!(share.len(), SHARE, "op {op}");
        assert!(share.iter().any(|case| case.b().is_none()), "op {op} of a literal");
        assert!(share.iter().all(|case| case.operands.undefined() <= MOST_UNDEFINED), "op {op}");
    }
}

#[test]
#[should_panic(expected = "cases that MOV lacks of its share")]
fn a_share_that_is_not_full_is_no_share() {
    shares(&Cases::new(1), 0..2000);
}
