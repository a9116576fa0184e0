//! Document 02's request L2 taken at its word: an image is put together from its fields and written, or
//! refused with the reader's numbers 3, 5, 6 and 7, and then with 12.

// `super`, since the copies for planted faults have an interpreter of their own beside them.
use super::interpreter::{
    check_regions, data_at, instruction_allowed, regions_at, within_limits, Refusal, CODE_AT,
    FIRST_BYTES,
};
use crate::types::{Fields, Header, Writer, Written};

pub const WRITER: Writer = Writer { name: "writer", write };

const INSTRUCTION_WORDS: usize = 2;
const REGION_WORDS: usize = 3;

pub fn write(fields: &Fields, out: &mut [u8]) -> Written {
    match fitting_image(fields, out.len()) {
        Ok(image) => {
            out[..image.len()].copy_from_slice(&image);
            Written { number: 0, index: 0, size: image.len() }
        }
        Err((number, index)) => Written { number, index: index as usize, size: 0 },
    }
}

/// The image, or the first refusal in number order.
fn fitting_image(fields: &Fields, room: usize) -> Result<Vec<u8>, Refusal> {
    let header = check_fields(fields)?;
    let image = put_together(fields, &header);
    if room < image.len() {
        return Err((12, 0));
    }
    Ok(image)
}

/// Refusals 3, 5, 6 and 7, in number order.
fn check_fields(fields: &Fields) -> Result<Header, Refusal> {
    let Some(header) = sizes(fields) else {
        return Err((3, 0));
    };
    let mut instructions = fields.instructions.chunks_exact(INSTRUCTION_WORDS);
    let at_fault = instructions.position(|words| !instruction_allowed(&bytes(words), &header));
    if let Some(index) = at_fault {
        return Err((5, index as u32));
    }
    let regions = fields.regions.chunks_exact(REGION_WORDS);
    let regions = regions.map(|words| [words[0], words[1], words[2]]);
    let filled = check_regions(regions, &header)?;
    if filled != u64::from(header.d) {
        return Err((7, 0));
    }
    Ok(header)
}

/// M, N, R and D, if both lists have whole entries and all four are within their limits.
fn sizes(fields: &Fields) -> Option<Header> {
    let n = entries(fields.instructions, INSTRUCTION_WORDS)?;
    let r = entries(fields.regions, REGION_WORDS)?;
    let d = u32::try_from(fields.data.len()).ok()?;
    let header = Header { number: 0, index: 0, m: fields.m, n, r, d };
    within_limits(&header).then_some(header)
}

/// How many entries of so many words a list has, unless it ends in a part of one.
fn entries(list: &[u32], words: usize) -> Option<u32> {
    if !list.len().is_multiple_of(words) {
        return None;
    }
    u32::try_from(list.len() / words).ok()
}

/// What an image holds, in its order (01).
fn put_together(fields: &Fields, header: &Header) -> Vec<u8> {
    let &Header { m, n, r, d, .. } = header;
    let sizes = [m, n, CODE_AT, r, regions_at(n), d, data_at(n, r)];
    let mut image = FIRST_BYTES.to_vec();
    image.extend(bytes(&sizes));
    image.extend(bytes(fields.instructions));
    image.extend(bytes(fields.regions));
    image.extend(fields.data);
    image
}

/// Little-endian words.
fn bytes(words: &[u32]) -> Vec<u8> {
    words.iter().flat_map(|word| word.to_le_bytes()).collect()
}
