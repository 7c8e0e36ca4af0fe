//! Members on the exact edge of a branch or check, found by factoring.

use std::ops::RangeInclusive;

use super::beams::{around, as_beam, total, DIAMETERS, GRADES};
use super::record::place::{beam, column};
use super::record::Record;
use crate::model::built::Group;
use crate::model::parameters::Parameters;
use crate::model::tables;

/// Pairs x·y = product inside two ranges, at most `most` of them.
pub(super) fn factors(
    product: u64,
    x: RangeInclusive<u64>,
    y: RangeInclusive<u64>,
    most: usize,
) -> Vec<(u64, u64)> {
    let pairs = x.filter(|&x| product.is_multiple_of(x)).map(|x| (x, product / x));
    pairs.filter(|pair| y.contains(&pair.1)).take(most).collect()
}

/// Groups of one diameter and 1 to 20 bars.
pub(super) fn single_groups() -> impl Iterator<Item = Vec<Group>> {
    DIAMETERS
        .into_iter()
        .flat_map(|diameter| (1..=20).map(move |bars| vec![Group { diameter, bars }]))
}

/// A beam with the least moments, no V and close links.
pub(super) fn plain_beam(b: u64, h: u64, grade: u32, steel: u32, tension: &[Group]) -> Record {
    let head = [b as u32, h as u32, b as u32, 0, 40, 0, grade, steel];
    let tail = [12, 4, 100, 2, 25, 2000, 1, 1, 0, 1, 0];
    let mut record = Record::beam(1, head, &[], &[], tail);
    record.first = tension.to_vec();
    record.count_groups();
    record
}

pub(super) fn divided(upper: u64, lower: u64) -> Option<u64> {
    upper.is_multiple_of(lower).then(|| upper / lower)
}

/// The record and its neighbours in one field.
fn spread(record: Record, field: usize, records: &mut Vec<Record>) {
    let value = u64::from(record.fields[field]);
    records.extend(around(value).map(|value| record.with(field, value)));
}

/// 6.3.1 at equality: 50·S = G, and 1000·S·fy = 45·ft·G.
fn minimum_steel(records: &mut Vec<Record>) {
    for tension in single_groups() {
        let area = total(&tension);
        for grade in GRADES {
            let ft = tables::concrete(u64::from(grade)).unwrap().ft;
            let sections = [Some(50 * area), divided(1000 * area * 360, 45 * ft)];
            for section in sections.into_iter().flatten() {
                for (b, h) in factors(section, 100..=1000, 160..=2000, 1) {
                    let mut record = plain_beam(b, h, grade, 1, &tension);
                    record.fields[beam::BF] = b as u32;
                    spread(record, beam::H, records);
                }
            }
        }
    }
}

/// 4.2.2-3 at equality: t is its part of h0·k.
fn depth_limit(records: &mut Vec<Record>) {
    for tension in single_groups() {
        for (grade, code) in GRADES.into_iter().flat_map(|grade| [(grade, 1), (grade, 2)]) {
            let concrete = tables::concrete(u64::from(grade)).unwrap();
            let steel = tables::steel(code).unwrap();
            let Parameters { stress, depth: (upper, lower), .. } = Parameters::of(concrete, steel);
            let force = 100 * steel.fy * total(&tension);
            let section = divided(lower * force, upper * stress * concrete.fc);
            for (b, h0) in factors(section.unwrap_or(1), 100..=1000, 120..=1960, 1) {
                let record = plain_beam(b, h0 + 40, grade, code as u32, &tension);
                spread(record, beam::H, records);
            }
        }
    }
}

/// t = 2·a'·k, the edge between 4.2.2 and 4.2.3.
fn shallow_depth(records: &mut Vec<Record>) {
    for tension in single_groups() {
        for (diameter, bars) in [(12, 2), (16, 3), (20, 2), (6, 2)] {
            let compression = vec![Group { diameter, bars }];
            for grade in GRADES {
                let concrete = tables::concrete(u64::from(grade)).unwrap();
                let steel = tables::steel(1).unwrap();
                let stress = Parameters::of(concrete, steel).stress;
                let Some(net) = total(&tension).checked_sub(total(&compression)) else {
                    continue;
                };
                let product = divided(100 * steel.fy * net, 2 * stress * concrete.fc).unwrap_or(1);
                for (distance, b) in factors(product, 20..=200, 100..=1000, 1) {
                    let mut record = plain_beam(b, 10 * distance + 200, grade, 1, &tension);
                    record.second = compression.clone();
                    record.count_groups();
                    record.fields[beam::A2] = distance as u32;
                    record.fields[beam::H] = record.fields[beam::H].min(2000);
                    if let Some(beam) = as_beam(&record) {
                        let above = beam.moment_capacity() + 1;
                        records.push(record.with(beam::MOMENT, above));
                    }
                    spread(record, beam::A2, records);
                }
            }
        }
    }
}

/// 5.5.6r at and next to equality: 1000·L·fyv = 24·ft·b·s, with V one above the concrete's share.
fn link_ratio(records: &mut Vec<Record>) {
    for (link, legs) in [6, 8, 10, 12].into_iter().flat_map(|d| (2..=8).map(move |n| (d, n))) {
        for (grade, code) in GRADES.into_iter().flat_map(|grade| [(grade, 1), (grade, 2)]) {
            let ft = tables::concrete(u64::from(grade)).unwrap().ft;
            let area = legs * tables::area(link).unwrap();
            let product = 1000 * area * tables::link_steel(code).unwrap().fyv;
            let equal = divided(product, 24 * ft).unwrap_or(1);
            let mut pairs = factors(equal, 50..=300, 100..=1000, 2);
            for spacing in [50, 87, 149, 200, 300] {
                let b = product / (24 * ft * spacing);
                pairs.extend([(spacing, b), (spacing, b + 1)]);
            }
            pairs.retain(|(_, b)| (100..=1000).contains(b));
            for (spacing, b) in pairs {
                let tension = [Group { diameter: 25, bars: 20 }];
                let mut record = plain_beam(b, 1000, grade, 1, &tension);
                record.fields[beam::LINK] = link as u32;
                record.fields[beam::LEGS] = legs as u32;
                record.fields[beam::LINK_STEEL] = code as u32;
                record.fields[beam::SPACING] = spacing as u32;
                record.fields[beam::SHEAR] = (7 * ft * b * 960 / 1000 + 1) as u32;
                spread(record, beam::SPACING, records);
            }
        }
    }
}

/// Webs, b and h0.
const WEBS: [(u64, u64); 4] = [(250, 1000), (400, 500), (200, 250), (300, 750)];

/// 1000·V = 7·ft·b·h0.
fn table_turns(records: &mut Vec<Record>) {
    for (grade, code) in GRADES.into_iter().flat_map(|grade| [(grade, 1), (grade, 2)]) {
        let ft = tables::concrete(u64::from(grade)).unwrap().ft;
        for (b, h0) in WEBS {
            for (diameter, bars) in [(16, 5), (20, 5), (10, 15), (12, 10), (25, 10)] {
                let tension = [Group { diameter, bars }];
                let mut record = plain_beam(b, h0 + 40, grade, code as u32, &tension);
                record.fields[beam::SHEAR] = (7 * ft * b * h0 / 1000) as u32;
                spread(record, beam::SHEAR, records);
            }
        }
    }
}

/// The beam with M at its capacity and Mq at 4.4.1's limit, next to it and at M, where the capacity is above.
fn at_stress_limit(record: &Record, records: &mut Vec<Record>) {
    let Some(beam) = as_beam(record) else { return };
    let quasi = beam.stress_limit() / 1_000_000;
    if let Some(&capacity) = beam.check().figures().first().filter(|capacity| quasi < **capacity) {
        let record = record.with(beam::MOMENT, capacity).with(beam::MOMENT_QUASI, quasi);
        records.push(record.with(beam::MOMENT_QUASI, capacity));
        spread(record, beam::MOMENT_QUASI, records);
    }
}

/// 4.4.1 at and next to equality, 10^6·Mq = 87·fyk·h0·S. Only steel of code 1, whose fy is more than 0.87·fyk,
/// can have a capacity above: little of it, or with compression bars close to their face.
fn steel_stress(records: &mut Vec<Record>) {
    for (b, h0) in WEBS {
        for (tension, grade) in single_groups().flat_map(|list| GRADES.map(|g| (list.clone(), g))) {
            let mut record = plain_beam(b, h0 + 40, grade, 1, &tension);
            at_stress_limit(&record, records);
            record.fields[beam::A2] = 20;
            record.second = tension;
            record.count_groups();
            at_stress_limit(&record, records);
        }
    }
}

/// 2·S = A (5.6.1) and 10·S = 3·A (the 3 percent rule).
fn column_steel(records: &mut Vec<Record>) {
    for tension in single_groups() {
        for doubled in [1, 2] {
            let bars: Vec<Group> = (0..doubled).flat_map(|_| tension.clone()).collect();
            let area = total(&bars);
            for section in [Some(2 * area), divided(10 * area, 3)].into_iter().flatten() {
                for (b, h) in factors(section, 300..=1500, 300..=1500, 1) {
                    let (b, h) = (b.min(h), b.max(h));
                    let head = [b as u32, h as u32, 40, 1];
                    let tail = [12, 50, 4000, 1000];
                    let mut record = Record::column(1, head, &[], tail);
                    record.first = bars.clone();
                    record.count_groups();
                    spread(record, column::H, records);
                }
            }
        }
    }
}

/// 5·S = 2·b·h0, question 10.
fn maximum_tension(records: &mut Vec<Record>) {
    for tension in single_groups() {
        let section = divided(5 * total(&tension), 2).unwrap_or(1);
        for (b, h0) in factors(section, 100..=1000, 120..=1960, 1) {
            spread(plain_beam(b, h0 + 40, 30, 1, &tension), beam::H, records);
        }
    }
}

/// All of them.
pub fn equalities() -> Vec<Record> {
    let mut records = Vec::new();
    minimum_steel(&mut records);
    depth_limit(&mut records);
    shallow_depth(&mut records);
    link_ratio(&mut records);
    table_turns(&mut records);
    steel_stress(&mut records);
    column_steel(&mut records);
    maximum_tension(&mut records);
    records
}
