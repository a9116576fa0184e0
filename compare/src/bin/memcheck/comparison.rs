//! The comparison: counts of the lines that were taken, and all that wasn't foreseen in them.

use std::collections::{BTreeMap, BTreeSet};
use std::ops::RangeInclusive;

use compare::images::op;

use crate::cases::Case;
use crate::differences::Relation::{self, Equal};
use crate::differences::ROWS;
use crate::events::{event_place, EVENTS};
use crate::modes::{Mode, ALL, EVERY};
use crate::moved::{ways_of, Way};
use crate::seen::Seen;

/// The operations that `vbits` runs, and the fewest cases of each that make a measurement.
const MEASURED: [RangeInclusive<u8>; 2] = [op::MOV..=op::ST32, op::LD16..=op::ST16];
const FEWEST_CASES: u32 = 4000;
const MOST_FAULTS_PER_FILE: usize = 10;

/// The counts of one operation in one mode, by relation, the cases with other data, and the ways that
/// were met.
#[derive(Default)]
pub struct Tally {
    pub by: BTreeMap<Relation, u32>,
    pub data_differs: u32,
    met: BTreeSet<Way>,
}

impl Tally {
    pub fn cases(&self) -> u32 {
        self.by.values().sum()
    }
}

/// The cases of one row, operation and mode, how many differ, and the first that does.
#[derive(Default)]
pub struct Use {
    pub cases: u32,
    pub differ: u32,
    pub first: String,
}

impl Use {
    fn add(&mut self, found: Relation, example: &str) {
        self.cases += 1;
        if found != Equal && self.differ == 0 {
            self.first = example.to_string();
        }
        self.differ += u32::from(found != Equal);
    }
}

/// Everything counted so far, and what wasn't foreseen.
#[derive(Default)]
pub struct Comparison {
    pub tallies: BTreeMap<(u8, Mode), Tally>,
    pub uses: BTreeMap<(usize, u8, Mode), Use>,
    pub events: BTreeMap<(usize, String), Vec<Mode>>,
    silent: Vec<Mode>,
    pub faults: Vec<String>,
}

impl Comparison {
    fn add_fault(&mut self, mode: Mode, what: &str) {
        self.faults.push(format!("mode {mode}: {what}"));
    }

    /// Takes the lines of a mode; of many faults, only the first are kept.
    pub fn take_file(&mut self, text: &str, mode: Mode) {
        let faults: Vec<String> =
            text.lines().filter_map(|line| self.take_line(line, mode).err()).collect();
        if faults.len() > MOST_FAULTS_PER_FILE {
            self.add_fault(mode, &format!("{} faults, the first:", faults.len()));
        }
        let first = faults.iter().take(MOST_FAULTS_PER_FILE);
        first.for_each(|fault| self.add_fault(mode, fault));
    }

    fn take_line(&mut self, line: &str, mode: Mode) -> Result<(), String> {
        if line == "operations errors 0" {
            self.silent.push(mode);
            return Ok(());
        }
        let unreadable = || format!("unreadable line: {line}");
        if line.starts_with("event ") {
            self.take_event(Seen::parse(line).ok_or_else(unreadable)?, mode)
        } else {
            self.take_case(Case::parse(line).ok_or_else(unreadable)?, mode)
        }
    }

    fn take_case(&mut self, case: Case, mode: Mode) -> Result<(), String> {
        let (data, v) = case.ours()?;
        let found = Relation::of(v, case.shadow);
        let tally = self.tallies.entry((case.op, mode)).or_default();
        *tally.by.entry(found).or_default() += 1;
        tally.met.extend(case.ways());
        if data != case.data {
            tally.data_differs += 1;
            return Err(format!("{case}: data {:#x}, ours {data:#x}", case.data));
        }
        let example = format!("{case}: Memcheck {:#x}, ours {v:#x}", case.shadow);
        let Some(place) = ROWS.iter().position(|row| row.fits(&case, mode)) else {
            return if found == Equal { Ok(()) } else { Err(format!("no row: {example}")) };
        };
        self.uses.entry((place, case.op, mode)).or_default().add(found, &example);
        let row = &ROWS[place];
        if !row.foresees(&case, found) {
            return Err(format!("not as its row says ({}): {example}", row.why));
        }
        Ok(())
    }

    fn take_event(&mut self, seen: Seen, mode: Mode) -> Result<(), String> {
        let place = event_place(&seen.name, mode).ok_or(format!("unknown event {}", seen.name))?;
        let event = &EVENTS[place];
        let ours = seen.ours(event)?;
        let special = event.modes.contains(&mode);
        let expected = if special { event.memcheck } else { ours };
        let text = format!("{} | {ours}", seen.memcheck);
        if seen.memcheck != expected || (special && ours == expected) {
            return Err(format!("event {}: {text}", seen.name));
        }
        self.events.entry((place, text)).or_default().push(mode);
        Ok(())
    }

    /// What the lines lacked: events, silent operations, cases, ways of the loads and stores.
    pub fn find_gaps(&mut self) {
        for event in EVENTS {
            for &mode in EVERY {
                let place = event_place(event.name, mode);
                let mut seen = self.events.iter().filter(|((at, _), _)| Some(*at) == place);
                if !seen.any(|(_, modes)| modes.contains(&mode)) {
                    self.add_fault(mode, &format!("no event {} as expected", event.name));
                }
            }
        }
        for &mode in ALL {
            if !self.silent.contains(&mode) {
                self.add_fault(mode, "the operations weren't silent");
            }
            for op in MEASURED.into_iter().flatten() {
                let (name, ways) = (op::NAMES[op as usize], ways_of(op));
                let tally = self.tallies.entry((op, mode)).or_default();
                let (cases, met) = (tally.cases(), tally.met.len());
                if cases < FEWEST_CASES {
                    self.add_fault(mode, &format!("too few cases of {name}"));
                }
                if met != ways {
                    self.add_fault(mode, &format!("{name} met {met} of {ways} ways"));
                }
            }
        }
    }

    /// Rows that decided no difference in one of their modes or operations.
    pub fn find_idle_rows(&mut self) {
        for (place, row) in ROWS.iter().enumerate() {
            let both = row.ops.iter().flat_map(|op| row.modes.iter().map(move |mode| (*op, *mode)));
            for (op, mode) in both {
                let used = self.uses.get(&(place, op, mode));
                if used.is_none_or(|used| used.differ == 0) {
                    let name = op::NAMES[op as usize];
                    self.add_fault(mode, &format!("{name} never differs: {}", row.why));
                }
            }
        }
    }
}
