//! Members that are refused by a question of one's choice.

use super::beams::total;
use super::moments::{moments, with_moments, MOST};
use super::record::place::{beam, column, mesh};
use super::record::Record;
use super::words::{of_record, KIND};
use super::Random;
use crate::model::built::Group;

/// The questions put to a member.
pub const QUESTIONS: [u32; 7] = [5, 6, 7, 8, 9, 10, 14];

/// Fields that no other flaw changes, out of their range; or a, which is then above the span, too.
fn out_of_range(kind: u32, random: &Random) -> (usize, u32) {
    match kind {
        4 if random.one_in(2) => random.pick(&[(beam::LOAD, 12_001), (beam::LOAD, u32::MAX)]),
        4 => out_of_range(1, random),
        1 => random.pick(&[
            (beam::B, 99),
            (beam::LEGS, 9),
            (beam::ENVIRONMENT, 0),
            (beam::STRICT, 2),
            (beam::STRICT, u32::MAX),
            (beam::CONCRETE, 85),
        ]),
        2 => random.pick(&[
            (column::CONCRETE, 51),
            (column::STEEL, 3),
            (column::LINK, 7),
            (column::LENGTH, 499),
            (column::AXIAL, 1_000_000_001),
        ]),
        _ => random.pick(&[
            (mesh::FAMILY, 0),
            (mesh::CONCRETE, 84),
            (mesh::DIAMETER, 18),
            (mesh::SEISMIC, 5),
            (mesh::LAP_GIVEN, 100_001),
        ]),
    }
}

/// Fields that do not fit together: of kind 4 a beyond the span, where that is in range.
fn inconsistent(record: &mut Record) {
    match record.kind {
        4 if record.fields[beam::SPAN] < 12_000 => {
            record.fields[beam::LOAD] = record.fields[beam::SPAN] + 1;
        }
        1 | 4 => record.fields[beam::COVER] = record.fields[beam::AS],
        2 => record.fields[column::B..=column::H].copy_from_slice(&[301, 300]),
        _ => {
            record.fields[mesh::CROSS] = 1;
            record.fields[mesh::APART] = 1;
        }
    }
}

/// 41 bars of the list's first diameter.
fn too_many_bars(list: &mut Vec<Group>) {
    let diameter = list[0].diameter;
    *list = [20, 20, 1].map(|bars| Group { diameter, bars }).to_vec();
}

/// The most bars of the largest diameter.
const THICK: [Group; 2] = [Group { diameter: 50, bars: 20 }; 2];

/// b·h0 of a beam.
fn effective_area(record: &Record) -> u64 {
    let depth = record.fields[beam::H] - record.fields[beam::AS];
    u64::from(record.fields[beam::B]) * u64::from(depth)
}

/// Mq above M: by one, with M = 0, or the two exchanged.
fn service_above(record: &mut Record, random: &Random) {
    let (design, service) = moments(record);
    let (design, service) = match random.below(4) {
        0 => (0, service),
        1 if service < design => (service, design),
        2 if design < MOST => (design, design + 1),
        _ => (service - 1, service),
    };
    *record = with_moments(record, design, service);
}

/// Puts a no to the question into a member, if its kind can have one. Flaws of later questions that it
/// already has stay.
pub fn flaw(record: &mut Record, question: u32, random: &Random) -> bool {
    match (question, record.kind) {
        (5, _) => record.mark = random.pick(&[0, 1_000_000, 1 << 20, u32::MAX]),
        (6, _) => record.kind = random.pick(&[0, 5, 5, 6, 257, 260, 1 << 31, u32::MAX]),
        (7, kind) => {
            let (field, value) = out_of_range(kind, random);
            record.fields[field] = value;
        }
        (8, _) => inconsistent(record),
        (9, 1 | 4) if !record.second.is_empty() && random.one_in(2) => {
            too_many_bars(&mut record.second);
        }
        (9, 1 | 2 | 4) => too_many_bars(&mut record.first),
        (10, 1 | 4) if 2 * effective_area(record) < 5 * total(&THICK) => {
            record.first = THICK.to_vec();
        }
        (14, 1 | 4) => service_above(record, random),
        _ => return false,
    }
    if matches!(question, 9 | 10) {
        record.count_groups();
    }
    true
}

/// The words of the member with a no to each of these questions, which rise, if its kind can have
/// them. Under an unknown kind the words are those of the known one.
pub fn flawed(record: &Record, questions: &[u32], random: &Random) -> Option<Vec<u32>> {
    let mut flawed = record.clone();
    if !questions.iter().rev().all(|&question| flaw(&mut flawed, question, random)) {
        return None;
    }
    let kind = std::mem::replace(&mut flawed.kind, record.kind);
    let mut words = of_record(&flawed, random);
    words[KIND] = kind;
    Some(words)
}
