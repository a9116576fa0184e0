//! The driver of the writers itself: its cases repeat, what it puts together and takes apart is document
//! 01's image, its words are plain, and it finds a writer that is wrong.

use std::fs;

use compare::images::hex;
use compare::interpreter;
use compare::numbering::Numbered;
use compare::parts::Parts;
use compare::plan::Plan;
use compare::types::{Engine, Fields, Writer, Written};
use compare::writer::WRITER;
use compare::writing::rewriting::{self, Images};
use compare::writing::{touched, try_case, Case, Cases, Rewritten, Tally, Trip, CHECKER};

/// The independent writer and the interpreter, each in the checker's place, too.
const INDEPENDENT: Trip =
    Trip { writer: &WRITER, readers: [&interpreter::ENGINE, &interpreter::ENGINE] };

fn planted(fault: &str) -> &'static Writer {
    faults::planted_writer(fault).expect("a planted fault of the writer")
}

fn planted_reader(fault: &str) -> &'static Engine {
    faults::planted(fault).expect("a planted fault")
}

fn example() -> Parts {
    Parts {
        m: 16,
        instructions: vec![0xFF00_0001, 8, 0x010E, 0, 0x0001_0012, 2, 0, 0],
        regions: vec![8, 4, 2],
        data: Vec::new(),
    }
}

#[test]
fn parts_are_put_together_and_taken_apart() {
    let bytes = example().bytes();
    let expected = "54554e31 10000000 04000000 20000000 01000000 40000000 00000000 4c000000 \
                010000ff08000000 0e01000000000000 1200010002000000 0000000000000000 \
                08000000 04000000 02000000";
    assert_eq!(hex(&bytes), expected.replace(' ', ""));
    assert_eq!((example().length(), example().ends()), (76, [32, 64, 76, 76]));
    assert_eq!(Parts::of_bytes(&bytes), Some(example()));
    assert_eq!(Parts::of_bytes(&bytes[..75]), None);
    assert_eq!(Parts::of_bytes(&bytes[..31]), None);
    for at in [8, 12, 16, 20, 24, 28] {
        let mut other = bytes.clone();
        other[at] ^= 1;
        assert_eq!(Parts::of_bytes(&other), None, "byte {at}");
    }
    let more = Parts { data: vec![1, 2, 3], ..example() };
    assert_eq!(Parts::of_bytes(&more.bytes()), Some(more));
}

#[test]
fn a_case_is_the_same_each_time() {
    let cases = Cases::new(7);
    for number in (0..cases.counted() + 2000).step_by(997) {
        assert!(cases.case(number) == cases.case(number), "case {number}");
    }
}

/// Kinds of which it is known that nothing is wrong but the room, and what is written of them.
#[test]
fn only_damaged_fields_are_refused() {
    let cases = Cases::new(3);
    for number in cases.counted()..cases.counted() + 2000 {
        let (kind, mut case) = cases.case(number);
        let name = Cases::kinds()[kind];
        let (parts, room) = (case.parts(), case.room());
        let written = case.written_by(&WRITER).expect("an answer");
        if ["legal fields", "largest image", "large fields"].contains(&name) {
            let number_due = if room < parts.length() { 12 } else { 0 };
            assert_eq!(written.number, number_due, "case {number}, {name}");
        } else if name.contains("sizes") || name.contains("register 15") {
            assert!([3, 5, 6].contains(&written.number), "case {number}, {name}");
        }
        if written.number == 0 {
            assert_eq!(case.out.part()[..written.size], parts.bytes(), "case {number}");
        }
    }
}

/// The first case in which a writer in the second place fails, as it is printed.
fn first_failure(trip: &Trip, other: &Writer) -> Option<String> {
    let cases = Cases::new(1);
    let mut numbers = 0..cases.counted() + 2000;
    let failure =
        numbers.find_map(|k| try_case(trip, other, &cases, k, &mut Tally::default()).err());
    failure.map(|failure| failure.to_string())
}

#[test]
fn a_difference_is_told_in_words() {
    for (fault, words) in [
        ("write_d_in_place_of_r", "  buffer byte 16: checker 0x2, write_d_in_place_of_r 0x8"),
        ("write_5_index_from_one", "  refusal index: checker 1, write_5_index_from_one 2"),
        ("write_size_in_words", "  size: checker 88, write_size_in_words 22"),
        ("write_12_when_exact", "  refusal number: checker 0, write_12_when_exact 12"),
    ] {
        let failure = first_failure(&CHECKER, planted(fault)).expect(fault);
        let lines: Vec<&str> = failure.lines().collect();
        assert!(lines[0].starts_with("writing: --seed 1 --written "), "{failure}");
        assert!(lines[1].starts_with("  M 0x10, instructions ["), "{failure}");
        assert!(lines[1].ends_with(" bytes"), "{failure}");
        assert_eq!(lines[2..], [words], "{failure}");
    }
}

/// A case that is printed is repeated by its number alone.
#[test]
fn what_is_printed_repeats_the_case() {
    let faulty = planted("write_r_of_8_bits");
    let failure = first_failure(&CHECKER, faulty).expect("it is found");
    let number = failure.split_whitespace().skip_while(|&word| word != "--written").nth(1);
    let number = number.and_then(|word| word.parse().ok()).expect("the case's number");
    let again = try_case(&CHECKER, faulty, &Cases::new(1), number, &mut Tally::default());
    assert_eq!(again.err().map(|failure| failure.to_string()), Some(failure));
    let right = try_case(&CHECKER, &WRITER, &Cases::new(1), number, &mut Tally::default());
    assert!(right.is_ok());
}

fn panics(_: &Fields, _: &mut [u8]) -> Written {
    panic!("no writer")
}

#[test]
fn a_writer_that_panics_is_found() {
    let failure = first_failure(&INDEPENDENT, &Writer { name: "panicking", write: panics });
    let failure = failure.expect("it is found");
    assert!(failure.ends_with("  the call itself: answered, panicked: no writer"), "{failure}");
}

#[test]
fn what_is_touched_beside_the_image_is_told_in_words() {
    let (_, case) = Cases::new(1).case(0);
    let size = case.parts().length();
    assert_eq!(touched("writer", &case, &case, 0), None);
    let words = |touch: fn(&mut Case), size| {
        let mut left = case.clone();
        touch(&mut left);
        touched("writer", &case, &left, size).unwrap_or_default()
    };
    let first_byte: fn(&mut Case) = |left| left.out.part_mut()[0] ^= 1;
    assert_eq!(words(first_byte, size), "");
    assert!(words(first_byte, 0).starts_with("buffer byte 0: writer 0x"));
    for (what, touch) in [
        (
            "guard 0 before the first buffer byte: ",
            (|left| left.out.all_mut()[0] ^= 1) as fn(&mut Case),
        ),
        ("guard 63 behind the last buffer byte: ", |left| *last(left.out.all_mut()) ^= 1),
        ("guard 63 behind the last data byte: ", |left| *last(left.data.all_mut()) ^= 1),
        ("instruction word 0: ", |left| left.instructions.part_mut()[0] ^= 1),
        ("region word 1: ", |left| left.regions.part_mut()[1] ^= 1),
        ("data byte 7: ", |left| left.data.part_mut()[7] ^= 1),
    ] {
        let found = words(touch, size);
        assert!(found.starts_with(what) && found.contains(", as lent 0x"), "{what}: {found}");
    }
}

fn last<T>(all: &mut [T]) -> &mut T {
    all.last_mut().expect("guards")
}

/// Both writers have the fault, so that they do not differ, and what is read back shows it.
#[test]
fn a_round_trip_that_breaks_is_told_in_words() {
    for (fault, words) in [
        ("write_code_offset_nought", "read back: (4, 0), not (0, 0)"),
        ("write_size_of_buffer", "read back: (4, 0), not (0, 0)"),
        ("write_m_as_last_end", "sizes: [12, 3, 2, 8], not [16, 3, 2, 8]"),
        ("write_imm_of_16_bits", "instructions: word "),
        ("write_last_region_to_m", "regions: word 4: 0x8, not 0x4"),
        ("write_data_left_out", "data: byte 0: 0x"),
        ("write_12_when_exact", "written again: Written { number: 12, index: 0, size: 0 }, not"),
        ("write_6_index_lost", "refused alike: (6, 0), not (6, "),
        ("write_part_region_is_6", "refused alike: 6, not 3"),
    ] {
        let faulty = planted(fault);
        let failure = first_failure(&Trip { writer: faulty, ..CHECKER }, faulty).expect(fault);
        let found = failure.lines().last().unwrap_or_default();
        let found = found.strip_prefix("  round trip, ");
        assert!(found.is_some_and(|found| found.starts_with(words)), "{fault}: {found:?}");
    }
}

#[test]
fn a_reader_that_is_wrong_breaks_the_round_trip() {
    for (fault, words) in [
        ("refusal_4_longer_image", "longer buffer: (0, 0), not (4, 0)"),
        ("refusal_3_m_top", "), not (3, 0)"),
        ("refusal_6_index_nought", "refused alike: (6, 1), not (6, 0)"),
    ] {
        let reader = planted_reader(fault);
        let failure = first_failure(&Trip { readers: [reader; 2], ..CHECKER }, &WRITER);
        let failure = failure.expect(fault);
        let found = failure.lines().last().unwrap_or_default();
        assert!(found.starts_with("  round trip, ") && found.ends_with(words), "{fault}: {found}");
    }
    let reader = planted_reader("refusal_5_index_from_one");
    let trip = Trip { readers: [CHECKER.readers[0], reader], ..CHECKER };
    let failure = first_failure(&trip, &WRITER).expect("they do not read alike");
    assert!(failure.contains("round trip, read alike: Header { number: 5, "), "{failure}");
}

/// Each image of the examples, and the longest one, now and before document 02's request L5.
#[test]
fn the_examples_are_written_again() {
    let folder = fs::read_dir("../examples").expect("the examples");
    let paths = folder.map(|entry| entry.expect("an example").path());
    let mut images: Vec<_> =
        paths.filter(|path| path.extension().is_some_and(|end| end == "image")).collect();
    assert!(images.len() >= 6);
    images
        .extend(["longest", "longest_before"].map(|name| format!("../tests/{name}.image").into()));
    for path in images {
        let image = fs::read(&path).expect("an image");
        assert!(CHECKER.rewrite(&image).is_ok_and(|came| came == Rewritten::Same), "{path:?}");
    }
    for (name, number) in [("frame", 5), ("instruction", 5), ("region", 6)] {
        let image = fs::read(format!("../tests/{name}.image")).expect("an image");
        let came = CHECKER.rewrite(&image);
        assert!(came.is_ok_and(|came| came == Rewritten::Refused(number)), "{name}");
    }
}

#[test]
fn an_image_that_is_written_otherwise_is_told_in_words() {
    let plan = Plan::new(1);
    let first = |fault| {
        let trip = Trip { writer: planted(fault), ..CHECKER };
        let try_image = |k| rewriting::try_image(&trip, &plan, k, &mut Images::default()).err();
        (0..2000).find_map(try_image).expect("it is found").to_string()
    };
    for (fault, words) in [
        ("write_first_bytes_left", "  written again: byte 0: 0xa5, not 0x54"),
        ("write_6_highest_index", "  refused alike: Written { number: 6, index: "),
        ("write_refused_cleared", "  refused alike: buffer byte 0: 0x0, not 0xa5"),
    ] {
        let failure = first(fault);
        assert!(failure.starts_with("image written again: --seed 1 --rewritten "), "{failure}");
        assert!(failure.lines().nth(1).is_some_and(|line| line.starts_with("  image 54")));
        assert!(failure.lines().nth(2).is_some_and(|line| line.starts_with(words)), "{failure}");
    }
}

#[test]
fn sorts_that_were_never_met_are_missed() {
    let missing = [Tally::default().missing(), Images::default().missing()].concat();
    for what in [
        "writing, refused with 3, counted: two words of a region",
        "writing, refused with 3, drawn: M 0",
        "writing, refused, drawn: 12 by one byte",
        "writing, refused in number order, counted: 7 before 12",
        "writing, accepted, drawn: the largest image",
        "writing, accepted, counted: N above 512",
        "writing, refused, drawn: 3, D 8,193",
        "writing, refused, counted: 12 where 3 was due",
        "writing, ops written, drawn: ST16",
        "writing, register 15 as d refused, counted: LDS16",
        "writing, register 15 as d written, drawn: ST8",
        "writing, of them longer buffers, refused with 4",
        "images written again: of them the largest",
        "images written again: refused with 7",
    ] {
        assert!(missing.contains(&what.to_string()), "{what}");
    }
    assert_eq!(missing.len(), 2 * (9 + 23 + 10 + 15 + 25 + 17 + 3) + 4 + 7);
}

#[test]
fn every_fault_has_a_name_of_its_own() {
    let names = faults::FAULTS.iter().map(|fault| fault.0);
    let names = names.chain(faults::WRITER_FAULTS.iter().map(|fault| fault.0));
    let mut names: Vec<&str> =
        names.chain(faults::COMMAND_FAULTS.iter().map(|fault| fault.0)).collect();
    let count = names.len();
    names.sort_unstable();
    names.dedup();
    assert_eq!(names.len(), count);
    assert_eq!(Case::FAMILIES.len() + Case::KINDS.len(), Cases::kinds().len());
}
