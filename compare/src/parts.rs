//! An image in the parts that it is written from, put together and taken apart as document 01 lays it out.

use crate::images::{word_at, HEADER_BYTES, MAGIC, REGION_BYTES, ROW_BYTES};
use crate::types::Fields;

pub const WORD_BYTES: usize = 4;
pub const ROW_WORDS: usize = ROW_BYTES / WORD_BYTES;
pub const REGION_WORDS: usize = REGION_BYTES / WORD_BYTES;

/// M, the words of instructions and of regions, and the data; legal or not.
#[derive(Clone, Debug, PartialEq, Eq)]
pub struct Parts {
    pub m: u32,
    pub instructions: Vec<u32>,
    pub regions: Vec<u32>,
    pub data: Vec<u8>,
}

/// The words of these bytes, four bytes each.
fn words(bytes: &[u8]) -> Vec<u32> {
    bytes.chunks_exact(WORD_BYTES).map(|word| word_at(word, 0)).collect()
}

impl Parts {
    pub fn fields(&self) -> Fields<'_> {
        let Parts { m, instructions, regions, data } = self;
        Fields { m: *m, instructions, regions, data }
    }

    /// Does no list end in a part of an entry?
    pub fn are_whole(&self) -> bool {
        self.instructions.len().is_multiple_of(ROW_WORDS)
            && self.regions.len().is_multiple_of(REGION_WORDS)
    }

    /// N, R and D, of entries that are whole.
    pub fn sizes(&self) -> [usize; 3] {
        let [n, r] = [self.instructions.len() / ROW_WORDS, self.regions.len() / REGION_WORDS];
        [n, r, self.data.len()]
    }

    /// Where instructions, regions and data begin, and where the image ends.
    pub fn ends(&self) -> [usize; 4] {
        let [n, r, d] = self.sizes();
        let at_regions = HEADER_BYTES + ROW_BYTES * n;
        let at_data = at_regions + REGION_BYTES * r;
        [HEADER_BYTES, at_regions, at_data, at_data + d]
    }

    /// The bytes of the image, of entries that are whole.
    pub fn length(&self) -> usize {
        let [.., end] = self.ends();
        end
    }

    /// The image; its sizes and offsets follow from the parts.
    pub fn bytes(&self) -> Vec<u8> {
        let [n, r, d] = self.sizes().map(|count| count as u32);
        let [at_rows, at_regions, at_data, _] = self.ends().map(|at| at as u32);
        let header = [self.m, n, at_rows, r, at_regions, d, at_data];
        let words = header.iter().chain(&self.instructions).chain(&self.regions);
        let mut bytes = MAGIC.to_vec();
        words.for_each(|word| bytes.extend(word.to_le_bytes()));
        bytes.extend(&self.data);
        bytes
    }

    /// An image taken apart by its offsets, if these and its length are as computed from its sizes.
    pub fn of_bytes(bytes: &[u8]) -> Option<Parts> {
        let header = words(bytes.get(..HEADER_BYTES)?);
        let &[_, m, n, at_rows, r, at_regions, d, at_data] = &header[..] else {
            return None;
        };
        let [n, r, d] = [n, r, d].map(u64::from);
        let due_regions = HEADER_BYTES as u64 + ROW_BYTES as u64 * n;
        let due_data = due_regions + REGION_BYTES as u64 * r;
        let due = [HEADER_BYTES as u64, due_regions, due_data, due_data + d];
        let ends = [at_rows, at_regions, at_data].map(u64::from);
        if ends != due[..3] || bytes.len() as u64 != due[3] {
            return None;
        }
        let [at_rows, at_regions, at_data] = ends.map(|at| at as usize);
        Some(Parts {
            m,
            instructions: words(&bytes[at_rows..at_regions]),
            regions: words(&bytes[at_regions..at_data]),
            data: bytes[at_data..].to_vec(),
        })
    }
}
