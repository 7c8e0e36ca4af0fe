//! Random beams, and beams whose loads lie next to their figures.

use super::record::place::beam::*;
use super::record::Record;
use super::Random;
use crate::model::beam::Beam;
use crate::model::built::Group;
use crate::model::member::{Body, Member};
use crate::model::outcome::{Check, Outcome};
use crate::model::tables;

pub const GRADES: [u32; 13] = [20, 25, 30, 35, 40, 45, 50, 55, 60, 65, 70, 75, 80];
pub const DIAMETERS: [u32; 15] = [6, 8, 10, 12, 14, 16, 18, 20, 22, 25, 28, 32, 36, 40, 50];

/// One to four groups, at most 40 bars, of about the wanted area (tenths of mm²).
pub fn random_groups(random: &Random, wanted: u64) -> Vec<Group> {
    let pieces = random.within(1, 4);
    let mut left = 40;
    let mut groups = Vec::new();
    for _ in 0..pieces {
        let share = wanted / pieces;
        let fitting: Vec<u32> = DIAMETERS
            .into_iter()
            .filter(|&d| (share / 11..=share + 283).contains(&area(d)))
            .collect();
        let diameter = if fitting.is_empty() { 50 } else { random.pick(&fitting) };
        let bars = ((share + area(diameter) / 2) / area(diameter)).clamp(1, 20).min(left);
        if bars == 0 {
            break;
        }
        left -= bars;
        groups.push(Group { diameter, bars: bars as u32 });
    }
    groups
}

pub fn area(diameter: u32) -> u64 {
    tables::area(u64::from(diameter)).unwrap_or(0)
}

pub fn total(groups: &[Group]) -> u64 {
    groups.iter().map(|group| area(group.diameter) * u64::from(group.bars)).sum()
}

/// Width, height, flange, distances, materials and bars.
fn random_section(random: &Random) -> Record {
    let mut record = Record::beam(1, [0; 8], &[], &[], [0; 11]);
    let b = random.within(100, if random.one_in(3) { 1000 } else { 450 });
    let h = match random.below(4) {
        0 => random.pick(&[300, 301, 500, 501, 800, 801]),
        1 => random.within(160, 900),
        _ => random.within(160, 2000),
    };
    let doubled = random.one_in(2);
    let most = (h / 2 - if doubled { 20 } else { 0 }).min(200);
    let cover_tension = random.within(20, if random.one_in(3) { most } else { most.min(60) });
    record.fields[B] = b as u32;
    record.fields[H] = h as u32;
    record.fields[BF] = b as u32;
    if random.one_in(3) {
        let widest = if random.one_in(2) { 3000 } else { (2 * b).min(3000) };
        record.fields[BF] = random.within(b + 1, widest) as u32;
        record.fields[HF] = random.within(1, (h / 2).min(1000).min(h / 8 + 20)) as u32;
    }
    record.fields[AS] = cover_tension as u32;
    record.fields[CONCRETE] = random.pick(&GRADES);
    record.fields[STEEL] = random.within(1, 2) as u32;
    // 0.2 to 4 percent, more often little.
    let effective = b * (h - cover_tension);
    let thousandths = if random.one_in(2) { random.within(2, 15) } else { random.within(2, 42) };
    record.first = random_groups(random, effective * thousandths / 100);
    if doubled {
        record.fields[A2] = random.within(20, (h / 2 - cover_tension).min(200)) as u32;
        let wanted = total(&record.first) * random.within(2, 130) / 100;
        record.second = random_groups(random, wanted);
    }
    record.count_groups();
    record
}

/// A span, often at a limit row's edge.
fn random_span(random: &Random, h0: u64) -> u64 {
    let most = (30 * h0).min(12_000);
    let span = match random.below(6) {
        0 => random.pick(&[6999, 7000, 7001, 8999, 9000, 9001, 1000, 12_000]),
        1 => most,
        2 | 3 => random.within(1000, most),
        _ => random.within(8 * h0, 16 * h0),
    };
    span.clamp(1000, most)
}

/// Links, cover and span.
fn random_details(random: &Random, record: &mut Record) {
    let h = u64::from(record.fields[H]);
    let cover_tension = u64::from(record.fields[AS]);
    let limit = random.pick(&[150, 200, 250, 300, 350, 400]);
    let spacing = match random.below(4) {
        0 => limit,
        1 => limit + 1,
        2 => random.within(50, 200),
        _ => random.within(50, 400),
    };
    record.fields[LINK] = random.pick(&[6, 8, 10, 12]);
    record.fields[LEGS] = random.within(2, 8) as u32;
    record.fields[SPACING] = spacing.min(400) as u32;
    record.fields[LINK_STEEL] = random.within(1, 2) as u32;
    record.fields[COVER] = random.within(15, (cover_tension - 1).max(15)) as u32;
    record.fields[SPAN] = random_span(random, h - cover_tension) as u32;
    record.fields[ENVIRONMENT] = random.within(1, 3) as u32;
    record.fields[STRICT] = random.below(2) as u32;
    record.fields[MOMENT] = 1;
    record.fields[MOMENT_QUASI] = 1;
}

/// Loads as parts of what the section carries. Where Mq is above M, M is raised to it, but for a few.
fn random_loads(random: &Random, record: &mut Record, beam: &Beam) {
    let part = |figure: u64| {
        let percent = if random.one_in(8) { random.within(90, 110) } else { random.within(0, 99) };
        (figure * percent / 100).min(100_000_000) as u32
    };
    let within = beam.is_within_depth_limit();
    let moment = if within { part(beam.moment_capacity()) } else { 0 };
    record.fields[SHEAR] = part(beam.shear_capacity());
    let yielding = beam.stress_limit() / 1_000_000;
    let percent = match random.below(8) {
        0 => random.within(80, 105),
        1 | 2 => random.within(1, 20),
        _ => random.within(10, 60),
    };
    let quasi = (yielding * percent / 100).clamp(1, 100_000_000) as u32;
    record.fields[MOMENT] = if random.one_in(16) { moment } else { moment.max(quasi) };
    record.fields[MOMENT_QUASI] = quasi;
}

/// A beam that most often passes the questions.
pub fn random_beam(random: &Random) -> Record {
    let mut record = random_section(random);
    random_details(random, &mut record);
    if let Some(beam) = as_beam(&record) {
        random_loads(random, &mut record, &beam);
    }
    record
}

/// A beam at each cover, up to 199 mm: it is below as, which is at most 200.
pub fn every_cover() -> Vec<Record> {
    let head = [300, 800, 300, 0, 200, 0, 30, 1];
    let tail = [8, 2, 200, 1, 15, 6000, 250_000, 200_000, 100_000, 1, 0];
    let beam = Record::beam(1, head, &[(25, 4)], &[], tail);
    (15..200).map(|cover| beam.with(COVER, cover)).collect()
}

pub fn as_beam(record: &Record) -> Option<Beam> {
    match record.read() {
        Some(Member { body: Body::Beam(beam), .. }) => Some(beam),
        _ => None,
    }
}

/// Values at, one below and one above.
pub fn around(value: u64) -> [u64; 3] {
    [value.saturating_sub(1), value, value + 1]
}

/// The largest Mq at which none of the checks fails, where the checks before them hold.
pub fn largest_quasi(beam: &Beam, checks: &[Check]) -> u64 {
    let holds = |moment_quasi| {
        let outcome: Outcome = Beam { moment_quasi, ..*beam }.check();
        !outcome.failed.is_some_and(|failed| checks.contains(&failed))
    };
    let (mut low, mut high) = (0, 100_000_001);
    while high - low > 1 {
        let middle = (low + high) / 2;
        if holds(middle) {
            low = middle;
        } else {
            high = middle;
        }
    }
    low
}

/// The beam with each load next to the figure that it is held against.
pub fn hugging_beams(record: &Record) -> Vec<Record> {
    let mut records = vec![record.clone()];
    let Some(beam) = as_beam(record) else {
        return records;
    };
    if !beam.is_within_depth_limit() {
        return records;
    }
    let edges = [
        (MOMENT, beam.moment_capacity()),
        (SHEAR, beam.shear_capacity()),
        (MOMENT_QUASI, beam.moment),
    ];
    for (field, value) in edges {
        records.extend(around(value).map(|value| record.with(field, value)));
    }
    for shear in around(beam.concrete_shear() / 1000) {
        let loaded = record.with(SHEAR, shear);
        let limit = Beam { shear, ..beam }.spacing_limit();
        records.extend(around(limit).map(|spacing| loaded.with(SPACING, spacing)));
    }
    records.extend(hugging_service(record, beam.moment_capacity()));
    records
}

/// The beam without V and with M at its capacity, with Mq next to each of its limits and to ψ = 0.2 and 1. An
/// Mq above the capacity is left out: question 14 would refuse it.
fn hugging_service(record: &Record, capacity: u64) -> Vec<Record> {
    let spacing = u64::from(record.fields[SPACING]).min(200);
    let record = record.with(SHEAR, 0).with(SPACING, spacing);
    let record = record.with(MOMENT, capacity).with(MOMENT_QUASI, 1);
    let Some(beam) = as_beam(&record) else {
        return Vec::new();
    };
    let mut quasi = Vec::new();
    let mut checks = Vec::new();
    for check in [Check::SteelStress, Check::CrackWidth, Check::Deflection] {
        checks.push(check);
        quasi.push(largest_quasi(&beam, &checks));
    }
    for stress in strain_factor_edges(&beam) {
        quasi.push(87 * beam.h0() * beam.tension.area * stress / 10_000_000_000);
    }
    let near = quasi.into_iter().flat_map(around).filter(|value| *value <= capacity);
    near.map(|value| record.with(MOMENT_QUASI, value)).collect()
}

/// σ where ψ leaves 0.2 and where it reaches 1.
fn strain_factor_edges(beam: &Beam) -> [u64; 2] {
    let relief = 325 * beam.concrete.ftk * beam.doubled_tension_area() / beam.tension.area;
    [relief * 10 / 9, (relief * 10).min(5_000_000)]
}
