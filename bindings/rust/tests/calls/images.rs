//! Stored images, whose runs are known.

use uviktalik::numbers::{FRAME_REGISTER, MAX_INSTRUCTIONS, MAX_MEMORY, MAX_STEPS, REGISTERS};
use uviktalik::{Buffers, Cause, Output, Refusal, Report, ReportKind, StopReason};

use crate::desk::{image, registers, Desk};

#[test]
fn the_incident_is_reported_once() {
    let mut desk = Desk::of("examples/incident");
    assert_eq!(desk.check(MAX_STEPS), Ok(StopReason::STOPPED));
    assert_eq!((desk.state.steps(), desk.state.reports(), desk.state.outputs()), (42, 1, 1));
    let reports: Vec<Report> = desk.state.reports_in(&desk.reports).collect();
    let kind = ReportKind::UNDEFINED_OUTPUT;
    assert_eq!(reports, [Report { steps: 41, index: 20, kind, detail: u32::MAX }]);
    assert_eq!(reports[0].to_string(), "step 41 at 20 kind 5 detail 4294967295");
    let outputs: Vec<Output> = desk.state.outputs_in(&desk.outputs).collect();
    assert_eq!(outputs, [Output { port: 2, value: 0 }]);
}

#[test]
fn the_mended_program_runs_clean() {
    let mut desk = Desk::of("examples/mended");
    assert_eq!(desk.check(MAX_STEPS), Ok(StopReason::STOPPED));
    assert_eq!(desk.state.reports(), 0);
    assert_eq!(desk.state.reports_in(&desk.reports).count(), 0);
    assert_eq!(desk.state.outputs_in(&desk.outputs).count(), 1);
}

#[test]
fn the_longest_image_runs_past_its_last_instruction() {
    let mut desk = Desk::of("tests/longest");
    assert_eq!(desk.check(MAX_STEPS), Ok(StopReason::PAST_END));
    assert_eq!((desk.state.index() as usize, desk.state.steps()), (MAX_INSTRUCTIONS, 18));
    let reports = desk.state.reports_in(&desk.reports).map(|report| report.to_string());
    let outputs = desk.state.outputs_in(&desk.outputs).map(|output| output.to_string());
    let lines: Vec<String> = reports.chain(outputs).collect();
    let expected = std::fs::read_to_string("../../tests/longest.out").expect("its lines");
    assert_eq!(lines, expected.lines().take(2 + 6).collect::<Vec<_>>());
    assert_eq!(desk.mem[5_000..5_004], [0, 0x20, 0, 0]);
    let undefined: Vec<usize> = (0..MAX_MEMORY).filter(|&byte| desk.vbits[byte] != 0).collect();
    assert_eq!((undefined, desk.vbits[8_191]), (vec![8_191], 255));
    assert!(desk.abits.iter().all(|&addressable| addressable == 1));
}

#[test]
fn the_longest_image_of_document_01_gives_what_it_gave() {
    let mut desk = Desk::of("tests/longest_before");
    assert_eq!((desk.image.len(), desk.mem.len()), (8_608, 4_096));
    assert_eq!(desk.check(MAX_STEPS), Ok(StopReason::STOPPED));
    assert_eq!((desk.state.steps(), desk.state.reports()), (2, 0));
    let outputs: Vec<Output> = desk.state.outputs_in(&desk.outputs).collect();
    assert_eq!(outputs, [Output { port: 0, value: 0xFFFE_FDFC }]);
}

#[test]
fn a_run_is_continued_from_its_state() {
    let mut whole = Desk::of("examples/incident");
    let mut parts = Desk::of("examples/incident");
    assert_eq!(whole.check(MAX_STEPS), Ok(StopReason::STOPPED));
    assert_eq!(parts.check(10), Ok(StopReason::NO_BUDGET));
    assert_eq!((parts.state.steps(), parts.state.reports()), (10, 0));
    assert_eq!(parts.run(MAX_STEPS - 10), Ok(StopReason::STOPPED));
    assert_eq!(parts.state, whole.state);
    assert!(parts.reports == whole.reports && parts.outputs == whole.outputs);
    assert!(parts.mem == whole.mem && parts.vbits == whole.vbits && parts.abits == whole.abits);
}

#[test]
fn a_beginning_defines_the_frame_register_alone() {
    let mut desk = Desk::of("examples/incident");
    assert_eq!(desk.begin(), Ok(()));
    assert_eq!(*desk.state.regs(), registers(desk.mem.len() as u32));
    let mut undefined = [u32::MAX; REGISTERS];
    undefined[FRAME_REGISTER] = 0;
    assert_eq!(*desk.state.regs_v(), undefined);
    assert_eq!(desk.state.index(), 0);
}

#[test]
fn runs_keep_the_frame_register() {
    let mut desk = Desk::of("tests/frame_read");
    assert_eq!(desk.begin(), Ok(()));
    for steps in 1..=12 {
        let reason = if steps < 12 { StopReason::NO_BUDGET } else { StopReason::STOPPED };
        assert_eq!((desk.run(1), desk.state.steps()), (Ok(reason), steps));
        assert_eq!(desk.state.regs()[FRAME_REGISTER], 64);
        assert_eq!(desk.state.regs_v()[FRAME_REGISTER], 0);
    }
}

/// Document 01's example: of 16 bytes of memory those from 8 to 11 are a region, of kind 2.
#[rustfmt::skip]
const EXAMPLE: [u32; 19] = [
    0x314E_5554, 16, 4, 32, 1, 64, 0, 76, // M 16, four instructions, one region, no data
    0xFF00_0001, 8, 0x0000_010E, 0, 0x0001_0012, 2, 0, 0, // MOV 0,8; LD32 1,0,0; EMIT 1,2; STOP
    8, 4, 2, // four bytes from 8 on
];

#[test]
fn a_beginning_sets_out_v_bits_and_a_bits() {
    let image: Vec<u8> = EXAMPLE.iter().flat_map(|w| w.to_le_bytes()).collect();
    let [mut mem, mut vbits, mut abits] = [(); 3].map(|()| [7; 16]);
    let buffers = &mut Buffers { mem: &mut mem, vbits: &mut vbits, abits: &mut abits };
    assert!(uviktalik::begin(&image, &registers(16), buffers).is_ok());
    assert_eq!((mem, vbits), ([7; 16], [255; 16]));
    assert_eq!(abits, [0, 0, 0, 0, 0, 0, 0, 0, 1, 1, 1, 1, 0, 0, 0, 0]);
}

#[test]
fn more_reports_are_counted_than_have_a_place() {
    let mut desk = Desk::of("tests/many");
    assert_eq!(desk.check(MAX_STEPS), Ok(StopReason::NO_PLACE));
    assert_eq!(desk.state.reports(), 256);
    assert_eq!(desk.state.reports_in(&desk.reports).count(), 64);
    assert_eq!(desk.state.outputs_in(&desk.outputs).count(), 256);
}

#[test]
fn the_code_is_a_part_of_the_image() {
    let image = image("examples/incident");
    let header = uviktalik::read(&image).expect("an accepted image");
    assert_eq!(header.code, &image[32..32 + 8 * header.n as usize]);
    let sizes = 32 + 8 * header.n + 12 * header.r + header.d;
    assert_eq!(sizes as usize, image.len());
}

#[test]
fn a_refusal_has_its_index_and_its_words() {
    for (name, cause) in [
        ("tests/instruction", Cause::BAD_INSTRUCTION),
        ("tests/frame", Cause::BAD_INSTRUCTION),
        ("tests/region", Cause::BAD_REGION),
        ("tests/one_byte_more", Cause::WRONG_LAYOUT),
        ("tests/one_byte_less", Cause::WRONG_LAYOUT),
    ] {
        let mut desk = Desk::of(name);
        let refusal = uviktalik::read(&desk.image).expect_err(name);
        assert_eq!(refusal.cause, cause, "{name}");
        let line = format!("refused {} at {}", refusal.number(), refusal.index);
        let expected = std::fs::read_to_string(format!("../../{name}.out")).expect(name);
        assert_eq!(line, expected.trim_end());
        assert_eq!(refusal.to_string(), format!("{line}: {}", cause.words()));
        assert_eq!(desk.begin(), Err(refusal), "{name}");
        assert_eq!(desk.run(1), Err(refusal), "{name}");
    }
    let refusal = Refusal { cause: Cause::BAD_REGION, index: 3 };
    assert_eq!(refusal.to_string(), "refused 6 at 3: a region breaks its rules");
    assert_eq!(Cause(200).words(), "unknown to this binding");
}
