//! The comparison's tables as they are printed: counts, rows of the expected differences, events.

use std::fmt;

use compare::images::op;

use crate::comparison::{Comparison, Use};
use crate::differences::{RELATIONS, ROWS};
use crate::events::EVENTS;
use crate::modes::Mode;

impl Comparison {
    fn write_counts(&self, f: &mut fmt::Formatter) -> fmt::Result {
        let kinds = RELATIONS.map(|kind| kind.to_string()).join(" | ");
        writeln!(f, "| op | mode | cases | {kinds} | data differs |")?;
        writeln!(f, "|---|---|---|---|---|---|---|---|")?;
        for ((op, mode), tally) in &self.tallies {
            write!(f, "| {} | {mode} | {} |", op::NAMES[*op as usize], tally.cases())?;
            for kind in RELATIONS {
                write!(f, " {} |", tally.by.get(&kind).copied().unwrap_or_default())?;
            }
            writeln!(f, " {} |", tally.data_differs)?;
        }
        Ok(())
    }

    fn write_rows(&self, f: &mut fmt::Formatter) -> fmt::Result {
        writeln!(f, "\n| op | mode | cases of the rule | differ | | Memcheck's rule |")?;
        writeln!(f, "|---|---|---|---|---|---|")?;
        for ((place, op, mode), used) in &self.uses {
            let (name, row) = (op::NAMES[*op as usize], &ROWS[*place]);
            let Use { cases, differ, first } = used;
            write!(f, "| {name} | {mode} | {cases} | {differ} | {} ", row.finer)?;
            writeln!(f, "| {}. {first} |", row.why)?;
        }
        Ok(())
    }

    fn write_events(&self, f: &mut fmt::Formatter) -> fmt::Result {
        writeln!(f, "\n| event | modes | Memcheck: reports, V, data | ours | |")?;
        writeln!(f, "|---|---|---|---|---|")?;
        for ((place, text), modes) in &self.events {
            let event = &EVENTS[*place];
            let modes: Vec<String> = modes.iter().map(Mode::to_string).collect();
            writeln!(f, "| {} | {} | {text} | {} |", event.name, modes.join(" "), event.why)?;
        }
        Ok(())
    }
}

impl fmt::Display for Comparison {
    fn fmt(&self, f: &mut fmt::Formatter) -> fmt::Result {
        self.write_counts(f)?;
        self.write_rows(f)?;
        self.write_events(f)
    }
}
