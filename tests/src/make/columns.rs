//! Random columns, and columns whose loads lie next to their figures.

use super::beams::{around, random_groups, GRADES};
use super::record::place::column::*;
use super::record::Record;
use super::Random;
use crate::model::column::Column;
use crate::model::member::{Body, Member};

/// Lengths below, at and between the points of the table of φ, and past its end.
fn random_length(random: &Random, b: u64) -> u64 {
    let point = 8 + 2 * random.below(22);
    let length = match random.below(8) {
        0 => random.within(500, 8 * b),
        1..=3 => point * b,
        4 => point * b + 1,
        5 => point * b - 1,
        6 => point * b + random.below(2 * b),
        _ => random.within(500, 30_000),
    };
    length.clamp(500, 30_000)
}

/// Link spacings at and past each limit, or well inside.
fn random_spacing(random: &Random, record: &Record) -> u32 {
    let b = record.fields[B];
    let smallest = record.first.iter().map(|group| group.diameter).min().unwrap_or(6);
    let spacing = match random.below(4) {
        0 => random.pick(&[400, 401, b, b + 1]),
        1 => 15 * smallest + random.below(2) as u32,
        _ => random.within(50, 300) as u32,
    };
    spacing.min(600)
}

/// A column that most often passes the questions.
pub fn random_column(random: &Random) -> Record {
    let b = random.within(300, if random.one_in(2) { 1500 } else { 600 });
    let highest = if random.one_in(2) { 1500 } else { b + 200 };
    let h = random.within(b, highest.min(1500));
    let grade = random.pick(&GRADES);
    let head = [b as u32, h as u32, grade, random.within(1, 2) as u32];
    let link = random.pick(&[6, 8, 10, 12, 12, 12]);
    let tail = [link, 0, random_length(random, b) as u32, 0];
    let mut record = Record::column(1, head, &[], tail);
    let tenths = if random.one_in(3) { random.within(28, 54) } else { random.within(4, 35) };
    record.first = random_groups(random, b * h * tenths / 100);
    record.count_groups();
    record.fields[SPACING] = random_spacing(random, &record);
    if let Some(column) = as_column(&record).filter(Column::is_within_slenderness) {
        let load = column.axial_capacity() * random.within(0, 105) / 100;
        record.fields[AXIAL] = load.min(1_000_000_000) as u32;
    }
    record
}

pub fn as_column(record: &Record) -> Option<Column> {
    match record.read() {
        Some(Member { body: Body::Column(column), .. }) => Some(column),
        _ => None,
    }
}

/// The column with its load, links and length next to what they are held against.
pub fn hugging_columns(record: &Record) -> Vec<Record> {
    let mut records = vec![record.clone()];
    let Some(column) = as_column(record) else {
        return records;
    };
    let mut set = |field: usize, value: u64| {
        records.extend(around(value).map(|value| record.with(field, value)));
    };
    if column.is_within_slenderness() {
        set(AXIAL, column.axial_capacity());
    }
    set(LENGTH, 8 * column.b);
    set(LENGTH, 50 * column.b);
    set(SPACING, 400.min(column.b).min(15 * column.bars.smallest));
    records
}

/// A column at each point of the table of φ, next to it, and between.
pub fn every_slenderness() -> Vec<Record> {
    let mut records = Vec::new();
    for (b, code) in [(300, 1), (301, 2), (397, 2), (600, 1)] {
        let column = Record::column(1, [b, 700, 35, code], &[(25, 8), (20, 4)], [10, 200, 500, 1]);
        for tenth in 0..=510 {
            let length = u64::from(b) * tenth / 10;
            let near = around(length).map(|length| column.with(LENGTH, length.clamp(500, 30_000)));
            records.extend(near);
        }
    }
    records
}
