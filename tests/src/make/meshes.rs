//! Random meshes, and meshes whose given lengths lie next to the required ones.

use super::beams::{around, GRADES};
use super::record::place::mesh::*;
use super::record::Record;
use super::Random;
use crate::model::member::{Body, Member};
use crate::model::mesh::{Mesh, SCALE};

/// A mesh that passes the questions.
pub fn random_mesh(random: &Random) -> Record {
    let mut record = Record::mesh(1, [0; 11]);
    record.fields[FAMILY] = random.within(1, 2) as u32;
    record.fields[CONCRETE] = random.pick(&GRADES);
    record.fields[DIAMETER] = random.pick(&[5, 6, 8, 10, 12, 14, 16]);
    record.fields[CROSS] = random.below(2) as u32;
    record.fields[PAIRED] = random.below(2) as u32;
    record.fields[APART] = random.below(2) as u32 * (1 - record.fields[CROSS]);
    record.fields[SEISMIC] = random.below(5) as u32;
    record.fields[LAP] = random.within(1, 2) as u32;
    record.fields[COMPRESSION] = random.below(2) as u32;
    record.fields[ANCHORAGE_GIVEN] = random.within(150, 1500) as u32;
    record.fields[LAP_GIVEN] = random.within(150, 2000) as u32;
    record
}

pub fn as_mesh(record: &Record) -> Option<Mesh> {
    match record.read() {
        Some(Member { body: Body::Mesh(mesh), .. }) => Some(mesh),
        _ => None,
    }
}

/// The mesh with its given lengths next to the required ones.
pub fn hugging_meshes(record: &Record) -> Vec<Record> {
    let mut records = vec![record.clone()];
    let Some(mesh) = as_mesh(record) else {
        return records;
    };
    let anchorage = mesh.scaled_anchorage().div_ceil(SCALE);
    let lap = mesh.scaled_lap().div_ceil(SCALE);
    for given in around(anchorage) {
        records.push(record.with(ANCHORAGE_GIVEN, given));
    }
    let anchored = record.with(ANCHORAGE_GIVEN, anchorage);
    for given in around(lap) {
        records.push(anchored.with(LAP_GIVEN, given));
    }
    records.push(anchored.with(LAP_GIVEN, 0));
    records.push(record.with(ANCHORAGE_GIVEN, 0));
    records
}

/// Each combination of fields, with the required lengths given.
pub fn every_mesh() -> Vec<Record> {
    let mut records = Vec::new();
    // Mixed radix: family, concrete, diameter, cross and apart, paired, seismic, lap, compression.
    for number in 0..2 * GRADES.len() * 7 * 3 * 2 * 5 * 2 * 2 {
        let mut rest = number;
        let mut digit = |base: usize| {
            let digit = rest % base;
            rest /= base;
            digit
        };
        let mut record = Record::mesh(1, [0; 11]);
        record.fields[FAMILY] = 1 + digit(2) as u32;
        record.fields[CONCRETE] = GRADES[digit(GRADES.len())];
        record.fields[DIAMETER] = [5, 6, 8, 10, 12, 14, 16][digit(7)];
        (record.fields[CROSS], record.fields[APART]) = [(0, 0), (0, 1), (1, 0)][digit(3)];
        record.fields[PAIRED] = digit(2) as u32;
        record.fields[SEISMIC] = digit(5) as u32;
        record.fields[LAP] = 1 + digit(2) as u32;
        record.fields[COMPRESSION] = digit(2) as u32;
        let mesh = as_mesh(&record).expect("a mesh");
        record.fields[ANCHORAGE_GIVEN] = mesh.scaled_anchorage().div_ceil(SCALE) as u32;
        record.fields[LAP_GIVEN] = mesh.scaled_lap().div_ceil(SCALE) as u32;
        records.push(record);
    }
    records
}
