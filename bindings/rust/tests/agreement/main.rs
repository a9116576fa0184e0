//! The header, the binding and the crates say the same: every number, every call with its parameters
//! in order. Nothing else would see them part, since the symbols' names have no types.

mod declared;
mod header;

use std::fs;

use declared::Numbers;
use header::Header;
use uviktalik::{numbers, Cause, CommandKind, ReportKind, StopReason};

fn text_of(path: &str) -> String {
    fs::read_to_string(path).unwrap_or_else(|error| panic!("{path}: {error}"))
}

fn header() -> Header {
    Header::of(&text_of("../../include/uviktalik.h"))
}

const CAPI: &str = "capi/src/lib.rt";
const EXPORTS: &str = "capi_c/src/lib.rt";

fn crate_text(file: &str) -> String {
    text_of(&format!("../../crates/{file}"))
}

fn constants_of(file: &str) -> Numbers {
    declared::constants(&crate_text(file))
}

fn variants_of(file: &str) -> Numbers {
    declared::variants(&crate_text(file))
}

#[test]
fn every_number_of_the_header_is_the_bindings() {
    let named = |&(name, number): &(&str, u64)| (name.to_string(), number);
    let mut binding: Numbers = numbers::ALL.iter().map(named).collect();
    binding.extend(Cause::ALL.iter().map(|&(name, cause)| (name.into(), cause.0.into())));
    binding.extend(StopReason::ALL.iter().map(|&(name, reason)| (name.into(), reason.0.into())));
    binding.extend(ReportKind::ALL.iter().map(|&(name, kind)| (name.into(), kind.0.into())));
    binding.extend(CommandKind::ALL.iter().map(|&(name, kind)| (name.into(), kind.0.into())));
    assert_eq!(header().numbers, binding);
}

#[test]
fn every_call_of_the_header_is_declared_so_by_the_binding_and_by_capi() {
    let header = header();
    let rust = declared::by_the_binding(include_str!("../../src/sys.rs"), &header.numbers);
    let rattle = declared::by_capi(&crate_text(CAPI));
    let exported = declared::by_exports(&crate_text(EXPORTS));
    assert_eq!(header.functions.len(), 6);
    assert_eq!(header.functions, rust);
    assert_eq!(header.functions, rattle);
    assert_eq!(header.functions, exported);
}

#[test]
fn the_version_ends_the_names_of_the_calls() {
    let header = header();
    let version = header.numbers["VERSION"];
    assert_eq!(uviktalik::version(), numbers::VERSION);
    let with_version: Vec<String> = ["begin", "command", "read", "run", "write"]
        .map(|call| format!("uviktalik_{call}_{version}"))
        .into();
    let mut symbols: Vec<String> = header.functions.keys().cloned().collect();
    symbols.retain(|symbol| symbol != "uviktalik_version");
    assert_eq!(symbols, with_version);
    assert_eq!(constants_of(CAPI)["VERSION"], version);
    let specs = crate_text("capi/specs/Words.antt");
    assert!(specs.lines().any(|line| line == format!("version = {version}")));
}

/// The header's numbers whose names begin so, without that beginning.
fn group(header: &Header, prefix: &str) -> Numbers {
    let numbers = header.numbers.iter();
    let named =
        |(name, &number): (&String, &u64)| Some((name.strip_prefix(prefix)?.into(), number));
    numbers.filter_map(named).collect()
}

#[test]
fn the_places_in_a_state_are_those_of_capi() {
    let mut state = group(&header(), "STATE_");
    let words = state.remove("WORDS").expect("how many there are");
    state.extend([
        ("STATE".to_string(), words),
        ("VERSION".to_string(), header().numbers["VERSION"]),
    ]);
    assert_eq!(state, constants_of(CAPI));
}

#[test]
fn refusals_stop_reasons_and_kinds_are_those_of_the_crates() {
    let header = header();
    let mut refusals = variants_of("image/src/refusals.rt");
    refusals.extend(variants_of("checker/src/refusals.rt"));
    refusals.extend(variants_of("writer/src/refusals.rt"));
    refusals.extend(constants_of("commands/src/refusals.rt"));
    assert_eq!(group(&header, "REFUSED_"), refusals);
    let mut none = constants_of("capi/src/none.rt");
    assert_eq!(none.remove("ACCEPTED"), Some(header.numbers["ACCEPTED"]));
    let mut reasons = variants_of("checker/src/reasons.rt");
    reasons.insert("NONE".to_string(), none.remove("REASON").expect("the number of no reason"));
    assert_eq!(group(&header, "REASON_"), reasons);
    assert_eq!(group(&header, "KIND_"), variants_of("checker/src/kinds.rt"));
    assert_eq!(group(&header, "COMMAND_"), constants_of("capi/src/kinds.rt"));
    assert!(none.is_empty());
}

#[test]
fn the_limits_are_those_of_the_crates() {
    let (image, run) = (constants_of("image/src/format.rt"), constants_of("flat/src/limits.rt"));
    let lists = constants_of("writer/src/entries.rt");
    let kinds = constants_of("image/src/kinds.rt");
    let sizes = image["HEADER"] + image["INSTRUCTION"] * image["MOST_N"];
    let sizes = sizes + image["REGION"] * image["MOST_R"] + image["MOST_D"];
    for (name, number) in [
        ("REGISTERS", image["REGISTERS"]),
        ("FRAME_REGISTER", image["FRAME_REGISTER"]),
        ("PORTS", image["PORTS"]),
        ("MAX_MEMORY", image["MOST_M"]),
        ("MAX_INSTRUCTIONS", image["MOST_N"]),
        ("MAX_REGIONS", image["MOST_R"]),
        ("MAX_DATA", image["MOST_D"]),
        ("MAX_IMAGE", sizes),
        ("FILLED", kinds["FILLED"]),
        ("UNDEFINED", kinds["UNDEFINED"]),
        ("INSTRUCTION_WORDS", lists["INSTRUCTION_WORDS"]),
        ("REGION_WORDS", lists["REGION_WORDS"]),
        ("MAX_STEPS", run["MOST_STEPS"]),
        ("REPORT_WORDS", run["REPORT"]),
        ("OUTPUT_WORDS", run["OUTPUT"]),
        ("MAX_REPORT_LIST", run["REPORT"] * run["MOST_REPORTS"]),
        ("MAX_OUTPUT_LIST", run["OUTPUT"] * run["MOST_OUTPUTS"]),
    ] {
        assert_eq!(header().numbers[name], number, "{name}");
    }
}
