//! Members with one field at or just outside its range, and at the edges of questions 8, 9 and 14.

use super::moments;
use super::record::place::{beam, column, mesh};
use super::record::Record;
use crate::model::built::Group;

/// The largest number of 32 bits.
pub(super) const HUGE: u32 = u32::MAX;

const GRADES: &[u32] = &[0, 15, 19, 20, 21, 24, 25, 45, 50, 51, 55, 75, 79, 80, 81, 85, HUGE];
const LINKS: &[u32] = &[0, 5, 6, 7, 8, 9, 10, 11, 12, 13, 14, HUGE];
const LOADS: &[u32] = &[0, 1, 99_999_999, 100_000_000, 100_000_001, HUGE];
const LENGTHS: &[u32] = &[0, 1, 100_000, 100_001, HUGE];
const CODES: &[u32] = &[0, 1, 2, 3, HUGE];
const FLAGS: &[u32] = &[0, 1, 2, HUGE];
const COUNTS: &[u32] = &[0, 1, 2, 3, 4, 5, HUGE];
const MESH_DIAMETERS: &[u32] = &[
    0, 4, 5, 6, 7, 8, 9, 10, 11, 12, 13, 14, 15, 16, 17, 18, 20, 22, 25, 28, 32, 36, 40, 50, HUGE,
];

/// Values to try in a field.
type Tried = (usize, &'static [u32]);

const BEAM: &[Tried] = &[
    (beam::B, &[0, 99, 100, 1000, 1001, HUGE]),
    (beam::H, &[0, 159, 160, 2000, 2001, HUGE]),
    (beam::BF, &[0, 99, 100, 3000, 3001, HUGE]),
    (beam::HF, &[0, 1, 1000, 1001, HUGE]),
    (beam::AS, &[0, 19, 20, 200, 201, HUGE]),
    (beam::A2, &[0, 1, 19, 20, 200, 201, HUGE]),
    (beam::CONCRETE, GRADES),
    (beam::STEEL, CODES),
    (beam::TENSION, COUNTS),
    (beam::COMPRESSION, COUNTS),
    (beam::LINK, LINKS),
    (beam::LEGS, &[0, 1, 2, 8, 9, HUGE]),
    (beam::SPACING, &[0, 49, 50, 400, 401, HUGE]),
    (beam::LINK_STEEL, CODES),
    (beam::COVER, &[0, 14, 15, 200, 201, HUGE]),
    (beam::SPAN, &[0, 999, 1000, 12_000, 12_001, HUGE]),
    (beam::MOMENT, LOADS),
    (beam::MOMENT_QUASI, LOADS),
    (beam::SHEAR, LOADS),
    (beam::ENVIRONMENT, &[0, 1, 2, 3, 4, HUGE]),
    (beam::STRICT, FLAGS),
];

/// What kind 4 has after kind 1's fields.
const POINT_LOAD: &[Tried] = &[(beam::LOAD, &[0, 1, 11_999, 12_000, 12_001, HUGE])];

const COLUMN: &[Tried] = &[
    (column::B, &[0, 299, 300, 1500, 1501, HUGE]),
    (column::H, &[0, 299, 300, 1500, 1501, HUGE]),
    (column::CONCRETE, GRADES),
    (column::STEEL, CODES),
    (column::GROUPS, COUNTS),
    (column::LINK, LINKS),
    (column::SPACING, &[0, 49, 50, 600, 601, HUGE]),
    (column::LENGTH, &[0, 499, 500, 30_000, 30_001, HUGE]),
    (column::AXIAL, &[0, 1, 1_000_000_000, 1_000_000_001, HUGE]),
];

const MESH: &[Tried] = &[
    (mesh::FAMILY, CODES),
    (mesh::CONCRETE, GRADES),
    (mesh::DIAMETER, MESH_DIAMETERS),
    (mesh::CROSS, FLAGS),
    (mesh::PAIRED, FLAGS),
    (mesh::APART, FLAGS),
    (mesh::SEISMIC, &[0, 1, 2, 3, 4, 5, HUGE]),
    (mesh::LAP, CODES),
    (mesh::COMPRESSION, FLAGS),
    (mesh::ANCHORAGE_GIVEN, LENGTHS),
    (mesh::LAP_GIVEN, LENGTHS),
];

/// What to try in the fields of a kind.
fn tried(kind: u32) -> Vec<Tried> {
    match kind {
        1 => BEAM.to_vec(),
        2 => COLUMN.to_vec(),
        3 => MESH.to_vec(),
        _ => [BEAM, POINT_LOAD].concat(),
    }
}

/// A record with every tried value in every field, mark and kind included.
pub fn field_edges(record: &Record) -> Vec<Record> {
    let mut records = Vec::new();
    for (field, values) in tried(record.kind) {
        records.extend(values.iter().map(|&value| record.with(field, u64::from(value))));
    }
    for mark in [0, 1, 999_999, 1_000_000, HUGE] {
        records.push(Record { mark, ..record.clone() });
    }
    for kind in [0, 1, 2, 3, 4, 5, 6, HUGE] {
        records.push(Record { kind, ..record.clone() });
    }
    records
}

/// Groups of every diameter and bar count tried.
pub fn tried_groups() -> Vec<Group> {
    let mut tried: Vec<Group> =
        (0..=52).chain([HUGE]).map(|diameter| Group { diameter, bars: 1 }).collect();
    tried.extend([0, 1, 20, 21, HUGE].map(|bars| Group { diameter: 12, bars }));
    tried
}

/// A record with every diameter and bar count tried in each of its groups.
pub fn group_edges(record: &Record) -> Vec<Record> {
    let mut records = Vec::new();
    for group in tried_groups() {
        for place in 0..record.first.len() {
            let mut changed = record.clone();
            changed.first[place] = group;
            records.push(changed);
        }
        for place in 0..record.second.len() {
            let mut changed = record.clone();
            changed.second[place] = group;
            records.push(changed);
        }
    }
    records
}

/// Changes several fields at once.
fn with_all(record: &Record, changes: &[(usize, u32)]) -> Record {
    changes
        .iter()
        .fold(record.clone(), |record, &(field, value)| record.with(field, u64::from(value)))
}

/// Question 8 at its edges.
fn consistency(base: &Record) -> Vec<Record> {
    use beam::*;
    let mut records = Vec::new();
    for h in [160, 161, 399, 400, 2000] {
        let half = h / 2;
        for bf in [299, 300, 301, 3000] {
            for hf in [0, 1, half - 1, half, half + 1] {
                records.push(with_all(base, &[(B, 300), (H, h), (BF, bf), (HF, hf)]));
            }
        }
        for distance in [20, 40, 79, 80, 199, 200] {
            for sum in [half - 1, half, half + 1] {
                let other = sum.saturating_sub(distance);
                records.push(with_all(base, &[(H, h), (AS, distance), (A2, other)]));
                records.push(with_all(base, &[(H, h), (AS, other), (A2, distance)]));
            }
            for cover in [distance - 1, distance, distance + 1] {
                records.push(with_all(base, &[(H, h), (AS, distance), (COVER, cover)]));
            }
            let longest = 30 * (h.saturating_sub(distance));
            for span in [longest.saturating_sub(1), longest, longest + 1] {
                records.push(with_all(base, &[(H, h), (AS, distance), (SPAN, span)]));
            }
        }
    }
    records
}

/// Question 8 at its edges, with the point load at the support; then the load around each span.
fn point_load_consistency(base: &Record) -> Vec<Record> {
    use beam::*;
    let mut records = consistency(&base.with(LOAD, 0));
    for span in [base.fields[SPAN], 1000, 1001, 6000, 11_999, 12_000] {
        for distance in [0, 1, span - 1, span, span + 1, 12_000, 12_001] {
            records.push(with_all(base, &[(SPAN, span), (LOAD, distance)]));
        }
    }
    records
}

/// Lists with 39 to 41 bars, and one to five groups.
fn bar_lists() -> Vec<Vec<Group>> {
    let list = |counts: &[u32]| counts.iter().map(|&bars| Group { diameter: 6, bars }).collect();
    vec![
        list(&[20, 19]),
        list(&[20, 20]),
        list(&[20, 20, 1]),
        list(&[10, 10, 10, 10]),
        list(&[10, 10, 10, 11]),
        list(&[20, 20, 20, 20]),
        list(&[1, 1, 1, 1, 1]),
        list(&[]),
    ]
}

/// The record with each of the bar lists as its first or second.
fn bar_counts(record: &Record) -> Vec<Record> {
    let mut records = Vec::new();
    for list in bar_lists() {
        for second in [false, true] {
            let mut changed = record.clone();
            if second {
                changed.second.clone_from(&list);
            } else {
                changed.first.clone_from(&list);
            }
            if record.is_beam() {
                changed.fields[beam::A2] = if changed.second.is_empty() { 0 } else { 40 };
            }
            changed.count_groups();
            records.push(changed);
        }
    }
    records
}

/// The edges of questions 8, 9 and 14 around an accepted member.
pub fn question_edges(record: &Record) -> Vec<Record> {
    let pairs = |first, second, values: &[(u32, u32)]| {
        let changed = values.iter().map(|&(x, y)| with_all(record, &[(first, x), (second, y)]));
        changed.collect::<Vec<Record>>()
    };
    let sides = [(300, 300), (301, 300), (300, 301), (1500, 1499), (1500, 1500)];
    let mut records = match record.kind {
        1 => consistency(record),
        4 => point_load_consistency(record),
        2 => pairs(column::B, column::H, &sides),
        _ => pairs(mesh::CROSS, mesh::APART, &[(0, 0), (0, 1), (1, 0), (1, 1)]),
    };
    records.extend(bar_counts(record));
    if record.is_beam() {
        records.extend(moments::around_design(record).into_iter().map(|(edge, _)| edge));
    }
    records
}
