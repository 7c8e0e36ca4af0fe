//! What the grades are compared on: concrete up to C80 (document 02, wish 7).

use super::{answered, members, Outcome};
use crate::branches::ENTRIES;
use crate::comparison::{Checker, Comparison};
use crate::make::{grades, Random};

/// Members of every grade in every entry, those with a grade that is refused, members at every edge, and `count` times
/// at random.
pub fn grades<C: Checker>(comparison: &mut Comparison<C>, random: &Random, count: u64) -> Outcome {
    for record in grades::accepted() {
        answered(comparison, random, &record, 0)?;
        for entry in ENTRIES {
            comparison.tally.note_grade(&record, entry);
        }
    }
    for record in grades::refused() {
        answered(comparison, random, &record, 7)?;
        for entry in ENTRIES {
            comparison.tally.note_refused_grade(&record, entry);
        }
    }
    members(comparison, random, grades::directed())?;
    for _ in 0..count {
        members(comparison, random, grades::random_beams(random))?;
    }
    Ok(())
}
