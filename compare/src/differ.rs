//! The first thing in which two answers differ, in words.

use crate::lent::{Drawn, Lent};

/// Looks for the first difference; once it is found the rest is passed over.
pub struct Differ {
    pub names: [&'static str; 2],
    pub found: Option<String>,
}

impl Differ {
    pub fn new(names: [&'static str; 2]) -> Differ {
        Differ { names, found: None }
    }

    /// The difference, where it is known that there is one.
    pub fn told(self) -> String {
        self.found.unwrap_or_else(|| "a difference without a name".to_string())
    }

    pub fn text(&mut self, what: &str, left: String, right: String) {
        if self.found.is_none() && left != right {
            let [first, second] = self.names;
            self.found = Some(format!("{what}: {first} {left}, {second} {right}"));
        }
    }

    pub fn word(&mut self, what: &str, left: u32, right: u32) {
        self.text(what, format!("{left:#x}"), format!("{right:#x}"));
    }

    /// `name` says what the place of a word means.
    pub fn words<T: Copy + Into<u32>>(
        &mut self,
        name: impl Fn(usize) -> String,
        left: &[T],
        right: &[T],
    ) {
        for (place, (&left, &right)) in left.iter().zip(right).enumerate() {
            if self.found.is_none() {
                self.word(&name(place), left.into(), right.into());
            }
        }
    }

    /// What is lent and what lies around it.
    pub fn lent<T: Drawn + Into<u32>>(&mut self, what: &str, left: &Lent<T>, right: &Lent<T>) {
        self.words(|k| format!("{what} {k}"), left.part(), right.part());
        let before = |k| format!("guard {k} before the first {what}");
        self.words(before, left.before(), right.before());
        let behind = |k| format!("guard {k} behind the last {what}");
        self.words(behind, left.behind(), right.behind());
    }
}
