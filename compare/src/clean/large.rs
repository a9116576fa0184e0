//! Programs of which rows and memory lie where only large images have them (document 02, L5).

use super::{body, Draft, Zones, COUNTERS, ZONE};
use crate::images::{Image, Operand, Row, FORMER_MEMORY, FORMER_ROWS, MOST_MEMORY, MOST_ROWS};
use crate::prng::Prng;

/// The most bytes of the zones with their gaps.
const ZONES: u32 = 3 * ZONE + 7;

/// Rows up to which the first block may begin; enough are left for all blocks.
const LAST_START: u32 = MOST_ROWS / 2;

impl Draft<'_> {
    /// A jump ahead over rows that are never run, unless as many rows are there already.
    fn leap(&mut self, to: u32) {
        let counter = COUNTERS[0];
        if self.rows.len() as u32 + 2 <= to {
            self.rows.push(Row::copy(counter, Operand::Literal(1)));
            self.rows.push(Row::jump(counter, to));
            self.rows.resize(to as usize, Row::stop());
        }
    }
}

/// The zones about byte 4,096 or at the end of 8,192, the blocks about row 512 or behind it, and the last row
/// at 2,047 or not.
pub fn large(prng: &mut Prng) -> Image {
    let about_former = FORMER_MEMORY - prng.below(ZONES);
    let start = prng.pick(&[about_former, MOST_MEMORY - ZONES]);
    let zones = Zones::from(start, prng);
    let m = prng.pick(&[zones.end(), MOST_MEMORY]).max(FORMER_MEMORY + 1);
    let first = prng.pick(&[FORMER_ROWS - 16, FORMER_ROWS, LAST_START]);
    let mut draft = Draft { prng, rows: Vec::new(), zones };
    draft.leap(first);
    let regions = draft.prepare();
    body(&mut draft, first, m);
    if draft.prng.one_in(2) {
        draft.leap(MOST_ROWS - 1);
    }
    draft.ended(m, regions)
}
