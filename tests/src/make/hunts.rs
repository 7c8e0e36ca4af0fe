//! Beams found by search, whose deflection turns on one step's rounding.

use super::beams::{as_beam, largest_quasi, random_beam};
use super::record::place::beam::{MOMENT, MOMENT_QUASI, SHEAR, SPACING};
use super::{Random, Record};
use crate::model::beam::Beam;
use crate::model::outcome::Check;

/// Whether u rounded down instead of up would give another deflection (4.5.1).
pub fn turns_on_u(beam: &Beam) -> bool {
    let cracked = beam.cracked();
    let section = beam.concrete.ec * beam.b * beam.h0();
    let z = 200_000 + (120_000_000_000 * beam.tension.area).div_ceil(section);
    let r = (115 * cracked.reduced).div_ceil(100) + (z * cracked.stress).div_ceil(1_000_000);
    let u = 29 * beam.span * beam.span * r / (6400 * beam.h0());
    let lower = (u * beam.long_term_factor()).div_ceil(1_000_000_000_000);
    lower != beam.deflection(&cracked)
}

/// Tries values of Mq, up to M, at which the deflection is reached.
fn hunt(record: &Record, beam: &Beam, random: &Random, found: &mut Vec<Record>) {
    let most = largest_quasi(beam, &[Check::SteelStress, Check::CrackWidth]).min(beam.moment);
    for _ in 0..20_000 {
        let moment_quasi = random.within(1, most);
        if turns_on_u(&Beam { moment_quasi, ..*beam }) {
            found.push(record.with(MOMENT_QUASI, moment_quasi));
            return;
        }
    }
}

/// At least `count` such beams.
pub fn hunts(random: &Random, count: usize) -> Vec<Record> {
    let mut found = Vec::new();
    while found.len() < count {
        let record = random_beam(random).with(MOMENT, 1).with(SHEAR, 0).with(SPACING, 150);
        let record = record.with(MOMENT_QUASI, 1);
        let Some(beam) = as_beam(&record) else { continue };
        if let [capacity, _, _, _] = *beam.check().figures() {
            let loaded = Beam { moment: capacity, ..beam };
            hunt(&record.with(MOMENT, capacity), &loaded, random, &mut found);
        }
    }
    found
}
