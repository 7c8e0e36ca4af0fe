//! Which cases of point-loaded beams were reached (document 02, wish 3).

use super::{grades, row, Case, Entry, Tally};
use crate::make::hunts::turns_on_u;
use crate::make::record::place::beam::{LOAD, SPAN};
use crate::make::Record;
use crate::model::beam::Beam;
use crate::model::outcome::{Check, Outcome};

const OK: &str = "kind 4 OK, place of a";
const SHEAR: &str = "kind 4 4.3.3, place of a";
const SHEAR_AT: &str = "kind 4 4.3.3 V at, place of a";
const SHEAR_ABOVE: &str = "kind 4 4.3.3 V one above, place of a";
const AT_SPAN: &str = "kind 4 a at l0, place of a";
const AT_MOST: &str = "kind 4 a at 12000";
const PART: &str = "kind 4 a/h0 not held, part (0 whole, 1 not)";
const FREE: &str = "kind 4 a/h0 between its limits, concrete";
const ONE_ROUNDING: &str = "kind 4 concrete part by one rounding";
const MOMENT: &str = "kind 4 4.2.2 M (0 at, 1 one above)";
const MOMENT_SHALLOW: &str = "kind 4 4.2.3 M (0 at, 1 one above)";
const STRESS: &str = "kind 4 4.4.1 Mq (0 highest, 1 one above)";
const SERVICE_AT: &str = "kind 4 Mq at M";
const TABLE_AT: &str = "kind 4 V (0 at 0.7 ft b h0, 1 one above)";
const SPACING: &str = "kind 4 5.5.6s not by the part, h";
const SPACING_AT: &str = "kind 4 5.5.6s not by V at part, h";
const SPACING_ABOVE: &str = "kind 4 5.5.6s not by V one above part, h";
const RATIO: &str = "kind 4 5.5.6r not by the part";
const RATIO_AT: &str = "kind 4 5.5.6r not by V (0 at part, 1 above)";
const SPACING_NAMED: &str = "kind 4 5.5.6s (0 no links needed, 1 needed)";
const WIDTH: &str = "kind 4 4.4.2 (0 at limit, 1 one above)";
const DEFLECTION: &str = "kind 4 4.5.1 (0 at limit, 1 one above)";
const ROUNDED_U: &str = "kind 4 4.5.1 by the rounding of u";

const IN_FILE: &str = "file with another end than a, no to";
const BY_ONE: &str = "kind 4 refused by a, by one (10 q + entry)";
const BY_MORE: &str = "kind 4 refused by a, by more (10 q + entry)";
const REFUSED: &str = "kind 4 refused (10 q + entry)";
const ACCEPTED: &str = "kind 4 accepted, a (10 entry + edge)";
const UNKNOWN: &str = "kind 5 refused, entry";
const NO_EFFECT: &str = "kind 1, number for a (10 entry + place)";
const TWINS: &str = "kinds 1 and 4 with a = 0";

/// Where a stands: 0 at the support; 15 and 30 at 1.5·h0 and 3·h0; 14, 16, 29 and 31 next to them; 10,
/// 20 and 40 below, between and above.
const PLACES: [u64; 10] = [0, 10, 14, 15, 16, 20, 29, 30, 31, 40];

fn place(h0: u64, distance: u64) -> u64 {
    // Doubled, as 1.5·h0 need not be whole.
    let (lower, upper) = (3 * h0, 6 * h0);
    match 2 * distance {
        0 => 0,
        a if a + 2 < lower => 10,
        a if a < lower => 14,
        a if a == lower => 15,
        a if a <= lower + 2 => 16,
        a if a + 2 < upper => 20,
        a if a < upper => 29,
        a if a == upper => 30,
        a if a == upper + 2 => 31,
        _ => 40,
    }
}

/// The number in a's place: 0 up to l0, 1 above, 2 above 12000.
fn place_of_load(record: &Record) -> u64 {
    let load = record.fields[LOAD];
    u64::from(load > record.fields[SPAN]) + u64::from(load > 12_000)
}

/// By how much a is above the most that a question allows: 12000 of 7, l0 of 8.
fn excess(record: &Record, question: u32) -> u32 {
    let most = if question == 7 { 12_000 } else { record.fields[SPAN] };
    record.fields[LOAD].saturating_sub(most)
}

/// The edge at which an accepted a stands: 0 the support, 1 l0, 2 12000.
fn edge(record: &Record) -> Option<u64> {
    match record.fields[LOAD] {
        0 => Some(0),
        12_000 => Some(2),
        load => (load == record.fields[SPAN]).then_some(1),
    }
}

impl Tally {
    /// Notes the cases of a point-loaded beam's checks.
    pub(super) fn point_loaded(&mut self, beam: &Beam, distance: u64, outcome: &Outcome) {
        let place = place(beam.h0(), distance);
        self.add_if(outcome.failed.is_none(), OK, place);
        self.add_if(outcome.failed == Some(Check::Shear), SHEAR, place);
        self.add_if(distance == beam.span, AT_SPAN, place);
        self.add_if(distance == 12_000, AT_MOST, 0);
        let figures = outcome.figures();
        if let Some(&capacity) = figures.first() {
            let about = if beam.is_shallow() { MOMENT_SHALLOW } else { MOMENT };
            self.at_or_above(about, capacity, beam.moment);
            self.add_if(beam.moment_quasi == beam.moment, SERVICE_AT, 0);
        }
        if let Some(&capacity) = figures.get(1) {
            self.add_if(beam.shear == capacity, SHEAR_AT, place);
            self.add_if(beam.shear == capacity + 1, SHEAR_ABOVE, place);
            self.concrete_part(beam, distance);
            self.add_if(matches!(place, 16 | 20 | 29), FREE, beam.concrete.grade);
            if capacity >= beam.shear {
                self.point_load_links(beam, outcome);
            }
        }
        if figures.len() > 2 || outcome.failed == Some(Check::SteelStress) {
            self.at_or_above(STRESS, beam.stress_limit() / 1_000_000, beam.moment_quasi);
        }
        if let Some(&width) = figures.get(2) {
            self.at_or_above(WIDTH, beam.width_limit(), width);
        }
        if let Some(&deflection) = figures.get(3) {
            let limit = 100 * beam.span / beam.deflection_divisor();
            self.at_or_above(DEFLECTION, limit, deflection);
            self.add_if(turns_on_u(beam), ROUNDED_U, 0);
        }
    }

    /// A number at its limit (0) and one above it (1).
    fn at_or_above(&mut self, about: &'static str, limit: u64, number: u64) {
        self.add_if(number == limit, about, 0);
        self.add_if(number == limit + 1, about, 1);
    }

    /// Whether the concrete part is whole, and whether 1.75·ft·b·h0 rounded first would give another.
    fn concrete_part(&mut self, beam: &Beam, distance: u64) {
        let (upper, lower) = beam.shear_ratio(distance);
        let force = 175 * beam.concrete.ft * beam.b * beam.h0();
        let whole = (force * lower).is_multiple_of(10_000 * (upper + lower));
        self.add_if((upper, lower) == (distance, beam.h0()), PART, u64::from(!whole));
        let twice = force / 10_000 * lower / (upper + lower);
        self.add_if(twice != beam.concrete_part(), ONE_ROUNDING, 0);
    }

    /// Table 5.5.6, above all where the concrete part of 4.3.3 is below 0.7·ft·b·h0.
    fn point_load_links(&mut self, beam: &Beam, outcome: &Outcome) {
        let is_spacing = outcome.failed == Some(Check::LinkSpacing);
        let needed = beam.needs_links();
        self.add_if(is_spacing, SPACING_NAMED, u64::from(needed));
        let turn = beam.concrete_shear() / 1000;
        if beam.concrete_part() >= turn {
            return;
        }
        if 1000 * turn == beam.concrete_shear() {
            self.at_or_above(TABLE_AT, turn, beam.shear);
        }
        if !needed && !is_spacing {
            self.not_by_the_part(beam, &Beam { shear: turn + 1, ..*beam });
        }
    }

    /// V at the concrete part and above it, where a check of table 5.5.6 would fail beyond its turn.
    fn not_by_the_part(&mut self, beam: &Beam, beyond: &Beam) {
        let (part, row) = (beam.concrete_part(), row(beam.h));
        let is_spaced = beam.spacing <= beyond.spacing_limit();
        let is_linked = beyond.has_minimum_links();
        if !is_spaced {
            self.add_if(beam.shear > part, SPACING, row);
            self.add_if(beam.shear == part, SPACING_AT, row);
            self.add_if(beam.shear == part + 1, SPACING_ABOVE, row);
        }
        self.add_if(!is_linked && beam.shear > part, RATIO, 0);
        if is_spaced && !is_linked {
            self.at_or_above(RATIO_AT, part, beam.shear);
        }
    }

    /// A file that is refused by this question, where a should stand and end it.
    pub fn note_refused_file(&mut self, question: u32) {
        self.add(IN_FILE, u64::from(question));
    }

    /// A member of kind 4 or 5 that an entry refuses by this question, or accepts, where it is 0.
    pub fn note_answer(&mut self, record: &Record, entry: Entry, question: u32) {
        let entry = entry as u64;
        match (record.kind, question) {
            (4, 0) => {
                if let Some(edge) = edge(record) {
                    self.add(ACCEPTED, 10 * entry + edge);
                }
            }
            (4, _) => self.refused(record, question, 10 * u64::from(question) + entry),
            (5, _) => self.add(UNKNOWN, entry),
            _ => {}
        }
    }

    /// A member of kind 4 that is refused, and whether its a is too large by one or by more.
    fn refused(&mut self, record: &Record, question: u32, variant: u64) {
        let excess = excess(record, question);
        self.add(REFUSED, variant);
        self.add_if(excess == 1, BY_ONE, variant);
        self.add_if(excess > 1, BY_MORE, variant);
    }

    /// A beam of kind 1 with a number where kind 4 has its a.
    pub fn note_no_effect(&mut self, record: &Record, entry: Entry) {
        self.add(NO_EFFECT, 10 * entry as u64 + place_of_load(record));
    }

    /// A beam of kind 1 and one of kind 4 with a = 0: equal lines, other bytes.
    pub fn note_twins(&mut self) {
        self.add(TWINS, 0);
    }
}

/// The checks of a beam, save 6.3.1v, which has cases of its own.
const CHECKS: [Check; 10] = [
    Check::MinimumSteel,
    Check::DepthLimit,
    Check::Moment,
    Check::MomentShallow,
    Check::Shear,
    Check::LinkSpacing,
    Check::LinkRatio,
    Check::SteelStress,
    Check::CrackWidth,
    Check::Deflection,
];

/// The cases of their checks by which the vectors' point-loaded beams are chosen.
pub fn point_load_cases() -> Vec<Case> {
    let mut cases: Vec<Case> = CHECKS.iter().map(|check| (check.name(), 4)).collect();
    let mut put = |about, variants: &[u64]| {
        cases.extend(variants.iter().map(|&variant| (about, variant)));
    };
    put("OK", &[4]);
    for about in [OK, SHEAR, SHEAR_AT, SHEAR_ABOVE] {
        put(about, &PLACES);
    }
    put(AT_SPAN, &[10, 20, 40]);
    for about in [MOMENT, MOMENT_SHALLOW, PART, SPACING_NAMED, WIDTH, DEFLECTION] {
        put(about, &[0, 1]);
    }
    put(SPACING, &[300, 500, 800, 801]);
    for about in [AT_MOST, ONE_ROUNDING, SERVICE_AT, TABLE_AT, RATIO, ROUNDED_U] {
        put(about, &[0]);
    }
    cases
}

/// Every case of point loads that a comparison is to reach.
pub fn required_of_point_loads() -> Vec<Case> {
    let mut cases = point_load_cases();
    let mut put = |about, variants: &[u64]| {
        cases.extend(variants.iter().map(|&variant| (about, variant)));
    };
    put(FREE, &grades());
    put(TABLE_AT, &[1]);
    put(SPACING_AT, &[300, 500, 800, 801]);
    put(SPACING_ABOVE, &[300, 500, 800, 801]);
    put(RATIO_AT, &[0, 1]);
    put(STRESS, &[0, 1]);
    put_entry_cases(&mut put);
    cases
}

/// What the entries accept, refuse and leave aside.
fn put_entry_cases(put: &mut impl FnMut(&'static str, &[u64])) {
    put(IN_FILE, &[2, 3, 6, 7, 8, 11]);
    put(BY_ONE, &[71, 72, 73, 81, 82, 83]);
    put(BY_MORE, &[71, 72, 73, 81, 82, 83]);
    put(REFUSED, &[71, 72, 73, 81, 82, 83, 91, 92, 93, 101, 102, 103, 141, 142, 143]);
    put(ACCEPTED, &[10, 11, 12, 20, 21, 22, 30, 31, 32]);
    put(UNKNOWN, &[1, 2, 3]);
    put(NO_EFFECT, &[20, 21, 22, 30, 31, 32]);
    put(TWINS, &[0]);
}
