//! What was tried of demand 3, to show that the claim was not empty.

use super::Pair;
use crate::commanding::{Answer, KINDS};
use crate::coverage::{add, pairs};

/// A program is counted under the highest of these step counts that it reached without a report.
const STEP_MARKS: [u32; 5] = [0, 1, 12, 48, 200];

/// Rules of document 02 that clean programs need, and the planted faults that have another instead: that of
/// document 01 for L4 and L13; for L1, V bits that are undefined above any undefined one, and noughts above
/// the data.
const NEEDED: [(&str, &str); 7] = [
    ("EQ", "eq_of_document_01"),
    ("ADD", "add_of_document_01"),
    ("SUB", "sub_of_document_01"),
    ("V above LDS8", "lds8_undefined_above_if_any"),
    ("V above LDS16", "lds16_undefined_above_if_any"),
    ("data above LDS8", "lds8_noughts_above_data"),
    ("data above LDS16", "lds16_noughts_above_data"),
];

#[derive(Default)]
pub struct Tally {
    pub programs: u64,
    pub looks: u64,
    /// Looks at which undefined bits differ between the two machines.
    pub differing: u64,
    /// Looks at rows and with memory that only large images have.
    pub large: u64,
    clean: [u64; STEP_MARKS.len()],
    stopped_by_report: [u64; STEP_MARKS.len()],
    /// Runs that were refused.
    pub refused: u64,
    outputs: u64,
    /// Looks at register 15 alone, after a report.
    pub frames_reported: u64,
    /// Programs that are refused once a row of theirs names register 15 as d.
    pub refused_images: u64,
    /// What both machines' outputs are as commands, by kind; of each program one is refused.
    commands: [u64; KINDS.len()],
    /// Programs that ran clean and would have been reported, or gone otherwise, with the other rule, if
    /// these are looked for.
    needing: Option<[u64; NEEDED.len()]>,
}

impl Tally {
    /// One for which each clean program is run once more with each of the other rules.
    pub fn with_needs() -> Tally {
        Tally { needing: Some(Default::default()), ..Tally::default() }
    }

    pub fn add(&mut self, other: &Tally) {
        self.programs += other.programs;
        self.looks += other.looks;
        self.differing += other.differing;
        self.large += other.large;
        self.refused += other.refused;
        self.outputs += other.outputs;
        self.frames_reported += other.frames_reported;
        self.refused_images += other.refused_images;
        add(&mut self.commands, &other.commands);
        for (to, from) in self.needing.iter_mut().flatten().zip(other.needing.iter().flatten()) {
            *to += from;
        }
        for mark in 0..STEP_MARKS.len() {
            self.clean[mark] += other.clean[mark];
            self.stopped_by_report[mark] += other.stopped_by_report[mark];
        }
    }

    /// An output that is the same command on both.
    pub(super) fn command(&mut self, answer: Answer) {
        if let Some(count) = self.commands.get_mut(usize::from(answer.kind)) {
            *count += 1;
        }
    }

    /// The pair has come to its end.
    pub(super) fn close(&mut self, pair: &Pair) {
        let reached = STEP_MARKS.partition_point(|&mark| mark <= pair.clean_steps) - 1;
        self.programs += 1;
        if pair.desk.state.reports > 0 {
            self.stopped_by_report[reached] += 1;
        } else {
            self.clean[reached] += 1;
            self.outputs += u64::from(pair.desk.state.outputs);
            for (count, (_, fault)) in self.needing.iter_mut().flatten().zip(NEEDED) {
                *count += u64::from(pair.is_changed_by(fault));
            }
        }
    }

    /// Is too little behind the claim: programs clean for dozens of steps, and by each needed rule,
    /// undefined bits that differ, large images, refused runs, outputs, commands of every kind; register 15 after a
    /// report, and every program refused for it?
    pub fn is_empty(&self) -> bool {
        let dozens: u64 = self.clean[3..].iter().sum();
        let few_programs = |&programs: &u64| 8 * programs < self.programs;
        let needing = self.needing.unwrap_or_default();
        let few = few_programs(&dozens) || needing.iter().any(few_programs);
        let few = few || 2 * self.differing < self.looks || self.large == 0;
        let few = few || self.frames_reported == 0 || self.refused_images < self.programs;
        let few = few || self.commands.contains(&0);
        few || self.programs == 0 || self.refused == 0 || self.outputs == 0
    }

    pub fn table(&self) -> String {
        let by_steps = |counts: &[u64]| {
            let pairs = STEP_MARKS.iter().zip(counts);
            let pairs: Vec<String> =
                pairs.map(|(mark, count)| format!("{mark}+ steps: {count}")).collect();
            pairs.join(", ")
        };
        let needing = NEEDED.iter().zip(self.needing.unwrap_or_default());
        let needing: Vec<String> =
            needing.map(|((rule, _), count)| format!("{rule}: {count}")).collect();
        format!(
            "programs that ran clean, by steps: {}\n\
             programs stopped by a report, by clean steps before it: {}\n\
             looks at both machines: {}, of them {} with undefined bits that differ, {} above row 511 with \
             more than 4,096 bytes\n\
             refused runs among them: {}; outputs of clean programs: {}\n\
             the same commands of both, refused past the last output: {}\n\
             looks at register 15 after a report: {}; programs refused for it as d of a row: {}\n\
             clean programs that another rule would report or change, {}\n",
            by_steps(&self.clean),
            by_steps(&self.stopped_by_report),
            self.looks,
            self.differing,
            self.large,
            self.refused,
            self.outputs,
            pairs(KINDS.iter().zip(self.commands)),
            self.frames_reported,
            self.refused_images,
            needing.join(", ")
        )
    }
}
