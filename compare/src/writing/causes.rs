//! What is wrong with the fields of a case, each cause by itself, whatever is looked for before it.

use std::cmp::Ordering;
use std::iter;

use super::case::Case;
use crate::images::{FILLED, MOST_DATA, MOST_MEMORY, MOST_REGIONS, MOST_ROWS};
use crate::interpreter::{check_regions, instruction_allowed};
use crate::parts::{Parts, REGION_WORDS, ROW_WORDS};
use crate::types::Header;

/// The causes of refusal 3.
pub const LIMITS: [&str; 9] = [
    "M 0",
    "M above 8,192",
    "no instruction",
    "N above 2,048",
    "R above 32",
    "D above 8,192",
    "part of an instruction",
    "a word of a region",
    "two words of a region",
];

pub struct Causes {
    /// Which of `LIMITS` there are.
    pub limits: [bool; LIMITS.len()],
    /// The indices of the instructions at fault.
    pub instructions: Vec<usize>,
    /// Is some region at fault, and how many are so whatever lies before them?
    pub region: bool,
    pub regions_alone: usize,
    /// D beside the filled sum.
    pub sum: Ordering,
    /// How many bytes the buffer lacks.
    pub lacking: usize,
}

/// The eight bytes of an instruction.
pub fn row(words: &[u32]) -> [u8; 8] {
    let [fields, imm] = [words[0], words[1]].map(u32::to_le_bytes);
    std::array::from_fn(|k| if k < 4 { fields[k] } else { imm[k - 4] })
}

/// The sizes as far as the rules of instructions and regions ask for them.
pub fn header(parts: &Parts) -> Header {
    let [n, r, d] = parts.sizes().map(|count| count as u32);
    Header { m: parts.m, n, r, d, ..Header::default() }
}

fn limits(parts: &Parts) -> [bool; LIMITS.len()] {
    let [n, r, d] = parts.sizes();
    let [rows, words] = [parts.instructions.len() % ROW_WORDS, parts.regions.len() % REGION_WORDS];
    [
        parts.m == 0,
        parts.m > MOST_MEMORY,
        n == 0,
        n > MOST_ROWS as usize,
        r > MOST_REGIONS as usize,
        d > MOST_DATA as usize,
        rows == 1,
        words == 1,
        words == 2,
    ]
}

impl Causes {
    pub fn of(case: &Case, parts: &Parts) -> Causes {
        let header = header(parts);
        let instructions = parts.instructions.chunks_exact(ROW_WORDS).enumerate();
        let at_fault = instructions.filter(|(_, words)| !instruction_allowed(&row(words), &header));
        let regions = parts.regions.chunks_exact(REGION_WORDS);
        let regions = regions.map(|words| [words[0], words[1], words[2]]);
        let alone =
            regions.clone().filter(|&region| check_regions(iter::once(region), &header).is_err());
        let filled = regions.clone().filter(|&[_, _, kind]| kind == FILLED);
        let filled: u64 = filled.map(|[_, length, _]| u64::from(length)).sum();
        Causes {
            limits: limits(parts),
            instructions: at_fault.map(|(index, _)| index).collect(),
            region: check_regions(regions.clone(), &header).is_err(),
            regions_alone: alone.count(),
            sum: (parts.data.len() as u64).cmp(&filled),
            lacking: parts.length().saturating_sub(case.room()),
        }
    }

    /// Is there a cause of this refusal?
    pub fn has(&self, number: u32) -> bool {
        match number {
            3 => self.limits.contains(&true),
            5 => !self.instructions.is_empty(),
            6 => self.region,
            7 => self.sum != Ordering::Equal,
            _ => self.lacking > 0,
        }
    }

    /// Is this the one cause of refusal 3?
    pub fn is_alone(&self, limit: usize) -> bool {
        self.limits[limit] && self.limits.iter().filter(|&&is| is).count() == 1
    }
}
