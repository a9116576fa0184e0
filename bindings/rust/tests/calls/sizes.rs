//! Buffers and lists of size 0, and sizes at their limits.

use uviktalik::numbers::{
    MAX_DATA, MAX_IMAGE, MAX_INSTRUCTIONS, MAX_MEMORY, MAX_OUTPUT_LIST, MAX_REGIONS,
    MAX_REPORT_LIST, MAX_STEPS, OUTPUT_WORDS, REPORT_WORDS,
};
use uviktalik::{Cause, StopReason};

use crate::desk::{image, Desk};

const INCIDENT: &str = "examples/incident";

fn cause_of_run(desk: &mut Desk, budget: u32) -> Option<Cause> {
    desk.run(budget).err().map(|refusal| refusal.cause)
}

#[test]
fn an_empty_image_is_refused() {
    let mut desk = Desk::of("tests/empty");
    assert!(desk.image.is_empty() && desk.mem.is_empty());
    let refused = |refusal: uviktalik::Refusal| refusal.cause == Cause::TOO_SHORT;
    assert!(uviktalik::read(&desk.image).is_err_and(refused));
    assert!(desk.begin().is_err_and(refused));
    assert!(desk.run(1).is_err_and(refused));
}

#[test]
fn an_empty_buffer_is_refused() {
    for take in [
        |desk: &mut Desk| desk.mem.clear(),
        |desk: &mut Desk| desk.vbits.clear(),
        |desk: &mut Desk| desk.abits.clear(),
    ] {
        let mut desk = Desk::of(INCIDENT);
        take(&mut desk);
        assert_eq!(desk.begin().map_err(|refusal| refusal.cause), Err(Cause::WRONG_SIZE));
        assert_eq!(cause_of_run(&mut desk, 1), Some(Cause::WRONG_SIZE));
    }
}

#[test]
fn without_a_report_list_reports_are_counted() {
    let (mut desk, mut listed) = (Desk::of(INCIDENT), Desk::of(INCIDENT));
    desk.reports.clear();
    assert_eq!(desk.check(MAX_STEPS), Ok(StopReason::STOPPED));
    assert_eq!(listed.check(MAX_STEPS), Ok(StopReason::STOPPED));
    assert_eq!(desk.state, listed.state);
    assert_eq!(desk.state.reports(), 1);
    assert_eq!(desk.state.reports_in(&desk.reports).count(), 0);
}

#[test]
fn without_an_output_list_the_first_output_ends_the_run() {
    let mut desk = Desk::of(INCIDENT);
    desk.outputs.clear();
    assert_eq!(desk.check(MAX_STEPS), Ok(StopReason::NO_PLACE));
    assert_eq!((desk.state.steps(), desk.state.reports(), desk.state.outputs()), (41, 0, 0));
}

#[test]
fn lists_have_whole_entries_up_to_their_limits() {
    let accepts = |reports: usize, outputs: usize| {
        let mut desk = Desk::of(INCIDENT);
        (desk.reports, desk.outputs) = (vec![0; reports], vec![0; outputs]);
        match desk.check(MAX_STEPS) {
            Ok(_) => true,
            Err(refusal) => refusal.cause != Cause::WRONG_SIZE,
        }
    };
    assert!(accepts(MAX_REPORT_LIST, MAX_OUTPUT_LIST));
    for words in 1..REPORT_WORDS {
        assert!(!accepts(MAX_REPORT_LIST - words, MAX_OUTPUT_LIST), "{words}");
    }
    assert!(accepts(MAX_REPORT_LIST - REPORT_WORDS, MAX_OUTPUT_LIST - OUTPUT_WORDS));
    assert!(!accepts(MAX_REPORT_LIST + REPORT_WORDS, MAX_OUTPUT_LIST));
    assert!(!accepts(MAX_REPORT_LIST, MAX_OUTPUT_LIST + OUTPUT_WORDS));
    assert!(!accepts(MAX_REPORT_LIST, MAX_OUTPUT_LIST - 1));
}

#[test]
fn the_budget_ends_at_the_most_steps() {
    let mut desk = Desk::of("tests/endless");
    assert_eq!(desk.begin(), Ok(()));
    assert_eq!(cause_of_run(&mut desk, MAX_STEPS + 1), Some(Cause::TOO_MANY_STEPS));
    assert_eq!(desk.run(MAX_STEPS), Ok(StopReason::NO_BUDGET));
    assert_eq!(desk.state.steps(), MAX_STEPS);
    assert_eq!(cause_of_run(&mut desk, 1), Some(Cause::TOO_MANY_STEPS));
}

#[test]
fn the_longest_image_has_every_size_at_its_limit() {
    let image = image("tests/longest");
    let header = uviktalik::read(&image).expect("an accepted image");
    assert_eq!(image.len(), MAX_IMAGE);
    let sizes = [header.m, header.n, header.r, header.d].map(|size| size as usize);
    assert_eq!(sizes, [MAX_MEMORY, MAX_INSTRUCTIONS, MAX_REGIONS, MAX_DATA]);
}

#[test]
fn a_size_one_above_its_limit_is_refused() {
    let longest = image("tests/longest");
    for (at, most) in [(4, MAX_MEMORY), (8, MAX_INSTRUCTIONS), (16, MAX_REGIONS), (24, MAX_DATA)] {
        let mut image = longest.clone();
        assert_eq!(image[at..at + 4], (most as u32).to_le_bytes());
        image[at..at + 4].copy_from_slice(&(most as u32 + 1).to_le_bytes());
        let refusal = uviktalik::read(&image).expect_err("a size above its limit");
        assert_eq!(refusal.cause, Cause::OUT_OF_LIMITS, "the word at {at}");
    }
}

#[test]
fn the_most_memory_has_buffers_of_as_many_bytes() {
    for take in [
        |desk: &mut Desk| desk.mem.truncate(MAX_MEMORY - 1),
        |desk: &mut Desk| desk.vbits.truncate(MAX_MEMORY - 1),
        |desk: &mut Desk| desk.abits.push(0),
    ] {
        let mut desk = Desk::of("tests/longest");
        assert_eq!(desk.check(MAX_STEPS), Ok(StopReason::PAST_END));
        take(&mut desk);
        assert_eq!(cause_of_run(&mut desk, 1), Some(Cause::WRONG_SIZE));
        assert_eq!(desk.begin().map_err(|refusal| refusal.cause), Err(Cause::WRONG_SIZE));
    }
}
