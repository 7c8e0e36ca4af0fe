//! Inputs of the report program that its crates store beside what it must print.

use super::base::random_member;
use super::vectors::members;
use super::{encode, renumber, Random};
use crate::model::schedule::{MOST_BYTES, MOST_MEMBERS};

/// A schedule with zeros after it, `length` bytes in all.
fn padded(schedule: &[u8], length: usize) -> Vec<u8> {
    let mut bytes = schedule.to_vec();
    bytes.resize(length, 0);
    bytes
}

/// As many members as a schedule may have, of the kinds 1 to 3: those that reach every case, then
/// random ones.
fn most_members(random: &Random) -> Vec<u8> {
    let mut records = members(random);
    while records.len() < MOST_MEMBERS as usize {
        let record = random_member(random);
        if record.read().is_some() {
            records.push(record);
        }
    }
    renumber(random, &mut records);
    encode(&records)
}

/// Each crate with its input; `three` is document 01's schedule.
pub fn inputs(random: &Random, three: &[u8]) -> [(&'static str, Vec<u8>); 3] {
    [
        ("run_500_members", most_members(random)),
        ("run_longest_input", padded(three, MOST_BYTES)),
        ("run_too_long", padded(three, MOST_BYTES + 1)),
    ]
}
