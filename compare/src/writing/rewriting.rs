//! The images of the comparison taken apart and written again.

use std::fmt;

use super::round_trip::{Broken, Rewritten, Trip};
use crate::coverage::pairs;
use crate::images::{hex, MOST_BYTES};
use crate::plan::Plan;

/// What came of the images.
const COLUMNS: [&str; 7] = [
    "the same",
    "of them the largest",
    "refused with 3",
    "refused with 5",
    "refused with 6",
    "refused with 7",
    "not taken apart",
];

#[derive(Default)]
pub struct Images {
    counts: [u64; COLUMNS.len()],
    pub all: u64,
}

impl Images {
    fn meet(&mut self, image: &[u8], rewritten: Rewritten) {
        self.all += 1;
        let place = match rewritten {
            Rewritten::Same => 0,
            Rewritten::Refused(3) => 2,
            Rewritten::Refused(5) => 3,
            Rewritten::Refused(6) => 4,
            Rewritten::Refused(_) => 5,
            Rewritten::NotApart => 6,
        };
        self.counts[place] += 1;
        self.counts[1] += u64::from(place == 0 && image.len() == MOST_BYTES);
    }

    pub fn add(&mut self, other: &Images) {
        self.all += other.all;
        crate::coverage::add(&mut self.counts, &other.counts);
    }

    /// What should have been met and was not.
    pub fn missing(&self) -> Vec<String> {
        let never = COLUMNS.iter().zip(self.counts).filter(|&(_, count)| count == 0);
        never.map(|(name, _)| format!("images written again: {name}")).collect()
    }

    pub fn table(&self) -> String {
        pairs(COLUMNS.iter().zip(self.counts)) + "\n"
    }
}

/// An image that is not the same, with all that is needed to see it again.
pub struct Failure {
    seed: u64,
    number: u64,
    kind: &'static str,
    image: String,
    broken: Broken,
}

impl fmt::Display for Failure {
    fn fmt(&self, out: &mut fmt::Formatter) -> fmt::Result {
        let Failure { seed, number, kind, image, broken } = self;
        writeln!(out, "image written again: --seed {seed} --rewritten {number} ({kind})")?;
        write!(out, "  image {image}\n  {broken}")
    }
}

/// The image of the comparison's case k.
pub fn try_image(trip: &Trip, plan: &Plan, number: u64, met: &mut Images) -> Result<(), Failure> {
    let (kind, case) = plan.case(number);
    let image = &case.desk.image;
    let failure = |broken| {
        let (seed, kind, image) = (plan.seed, Plan::kinds()[kind], hex(image));
        Failure { seed, number, kind, image, broken }
    };
    let rewritten = trip.rewrite(image).map_err(failure)?;
    met.meet(image, rewritten);
    Ok(())
}
