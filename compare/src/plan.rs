//! The cases of the comparison, counted and drawn.

use crate::cases::{Case, KINDS};
use crate::families::Family;
use crate::numbering::{Cases, Kind, Numbered};
use crate::systematic::FAMILIES;

impl Numbered for Case {
    const STREAM: u64 = 1;
    const FAMILIES: &'static [Family<Case>] = &FAMILIES;
    const KINDS: &'static [Kind<Case>] = &KINDS;
}

pub type Plan = Cases<Case>;
