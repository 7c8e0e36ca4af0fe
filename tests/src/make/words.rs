//! Members as the words in which they are lent to the writer.

use super::beams::GRADES;
use super::lists::listed;
use super::record::{decode, Record};
use super::Random;
use crate::model::built::Group;
use crate::model::held::WORDS;

/// Groups for which a list has slots.
pub const GROUPS: usize = 4;
/// A member's first words.
pub const MARK: usize = 0;
pub const KIND: usize = 1;
/// The words of l0, M and Mq in a beam, and of a in a point-loaded one; in kind 1 the last has no effect.
pub const SPAN: usize = 2 + 31;
pub const MOMENT: usize = 2 + 32;
pub const MOMENT_QUASI: usize = 2 + 33;
pub const LOAD: usize = 2 + 37;

/// The words that count a kind's lists; eight words for groups follow each.
pub fn counts(kind: u32) -> &'static [usize] {
    match kind {
        1 | 4 => &[2 + 8, 2 + 17],
        2 => &[2 + 4],
        _ => &[],
    }
}

/// A kind's words up to its last field.
pub fn end(kind: u32) -> usize {
    match kind {
        1 => LOAD,
        4 => LOAD + 1,
        2 => 2 + 17,
        3 => 2 + 11,
        _ => 2,
    }
}

/// A word for a slot that has no effect.
pub fn junk(random: &Random) -> u32 {
    match random.below(4) {
        0 => 0,
        1 => random.pick(&GRADES),
        2 => random.within(1, 20) as u32,
        _ => random.next() as u32 >> random.below(32),
    }
}

/// Junk, of which every second group could be one of the list.
fn junk_group(random: &Random) -> Group {
    if random.one_in(2) {
        listed(random)
    } else {
        Group { diameter: junk(random), bars: junk(random) }
    }
}

/// A record's words. Slots past a list's groups and past the fields are filled with junk.
pub fn of_record(record: &Record, random: &Random) -> Vec<u32> {
    let mut words = vec![record.mark, record.kind];
    for field in 0..record.field_count() {
        words.push(record.fields[field]);
        let Some(list) = record.list(field) else {
            continue;
        };
        for place in 0..GROUPS {
            let group = list.get(place).copied().unwrap_or_else(|| junk_group(random));
            words.extend([group.diameter, group.bars]);
        }
    }
    words.resize_with(WORDS, || junk(random));
    words
}

/// The words of these members.
pub fn of_records(records: &[Record], random: &Random) -> Vec<u32> {
    records.iter().flat_map(|record| of_record(record, random)).collect()
}

/// The words of an accepted schedule's members.
pub fn of_file(bytes: &[u8], random: &Random) -> Vec<u32> {
    of_records(&decode(bytes), random)
}
