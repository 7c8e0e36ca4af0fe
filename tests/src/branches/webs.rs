//! Which cases of 6.3.1v were reached: V at most β·βc·fc·b·h0 (document 02, wishes 6 and 7).

use super::{grades, Case, Entry, Tally};
use crate::make::webs::MOST;
use crate::model::beam::Beam;
use crate::model::outcome::{Check, Outcome};

/// Of kind 1 and of kind 4. Only this check decides: one below, equal and highest are OK, 4.3.3 holds above.
const BELOW: [&str; 2] = ["kind 1 6.3.1v V one below, h0/b", "kind 4 6.3.1v V one below, h0/b"];
const EQUAL: [&str; 2] = ["kind 1 6.3.1v V equal, h0/b", "kind 4 6.3.1v V equal, h0/b"];
const HIGHEST: [&str; 2] =
    ["kind 1 6.3.1v V highest, not equal, h0/b", "kind 4 6.3.1v V highest, not equal, h0/b"];
const ABOVE_EQUAL: [&str; 2] =
    ["kind 1 6.3.1v V one above equal, h0/b", "kind 4 6.3.1v V one above equal, h0/b"];
const ABOVE: [&str; 2] =
    ["kind 1 6.3.1v V lowest above, h0/b", "kind 4 6.3.1v V lowest above, h0/b"];
/// With V highest and one above, by range of h0/b (4 up to 4, 5 between, 6 from 6) and grade.
const GRADE: [&str; 2] =
    ["kind 1 6.3.1v V highest (100 range + grade)", "kind 4 6.3.1v V highest (100 range + grade)"];
const GRADE_ABOVE: [&str; 2] =
    ["kind 1 6.3.1v V above (100 range + grade)", "kind 4 6.3.1v V above (100 range + grade)"];
/// Which of the two limits fails, by range of h0/b.
const LIMITS: [&str; 2] =
    ["kind 1 fails (10 range + 1 6.3.1v, 2 4.3.3)", "kind 4 fails (10 range + 1 6.3.1v, 2 4.3.3)"];

const FLANGE: &str = "6.3.1v with flange (10 kind + 1 if above)";
const SHALLOW: &str = "6.3.1v after 4.2.3 (10 kind + 1 if above)";
const MOMENT_FIRST: &str = "4.2.2 or 4.2.3, 6.3.1v too (10 kind + 2 or 3)";
const NO_SHEAR: &str = "6.3.1v V = 0, kind";
const MOST_SHEAR: &str = "6.3.1v V = 10^8, kind";
const NAMED: &str = "6.3.1v named (10 kind + entry)";
const SHARE: &str = "6.3.1v, share of the moment alone, kind";

/// Where h0/b stands: 40, 60 and 140 at 4, 6 and 14 (where the line from 4 to 6, drawn on, reaches 0); 39, 41, 59, 61,
/// 139 and 141 one mm next to these; 20, 50, 80 and 150 below, between and above.
const PLACES: [u64; 13] = [20, 39, 40, 41, 50, 59, 60, 61, 80, 139, 140, 141, 150];

fn place(b: u64, h0: u64) -> u64 {
    for turn in [4, 6, 14] {
        if h0.abs_diff(turn * b) <= 1 {
            return 10 * turn + h0 - turn * b;
        }
    }
    match h0 / b {
        0..=3 => 20,
        4 | 5 => 50,
        6..=13 => 80,
        _ => 150,
    }
}

/// The range of h0/b: 4 up to 4, 5 between, 6 from 6.
pub(super) fn range(b: u64, h0: u64) -> u64 {
    if h0 <= 4 * b {
        4
    } else if h0 < 6 * b {
        5
    } else {
        6
    }
}

impl Tally {
    /// Notes the cases of a beam whose moment has its figure; 6.3.1v is put where the moment's check holds.
    pub(super) fn web(&mut self, beam: &Beam, outcome: &Outcome) {
        let Some(capacity) = outcome.figures().first() else {
            return;
        };
        if *capacity < beam.moment {
            let moment = if beam.is_shallow() { 3 } else { 2 };
            self.add_if(!beam.is_within_web_limit(), MOMENT_FIRST, 10 * beam.kind() + moment);
            return;
        }
        let row = usize::from(beam.kind() == 4);
        let crushes = outcome.failed == Some(Check::WebCrushing);
        let shear_fails = beam.shear_capacity() < beam.shear;
        let limits = u64::from(crushes) + 2 * u64::from(shear_fails);
        self.add(LIMITS[row], 10 * range(beam.b, beam.h0()) + limits);
        self.add_if(beam.shear == 0 && !crushes, NO_SHEAR, beam.kind());
        self.add_if(beam.shear == MOST && crushes, MOST_SHEAR, beam.kind());
        if outcome.failed.is_none() {
            self.within_web(beam, row);
        } else if crushes && !shear_fails {
            self.beyond_web(beam, row);
        }
    }

    /// A beam that is OK, with V next to 6.3.1v's limit; `row` is its kind's.
    fn within_web(&mut self, beam: &Beam, row: usize) {
        let (upper, lower) = beam.web_limit();
        let place = place(beam.b, beam.h0());
        self.add_if(
            lower * (beam.shear + 1) <= upper && upper < lower * (beam.shear + 2),
            BELOW[row],
            place,
        );
        self.add_if(lower * beam.shear == upper, EQUAL[row], place);
        if lower * (beam.shear + 1) > upper {
            self.add_if(lower * beam.shear < upper, HIGHEST[row], place);
            self.add(GRADE[row], 100 * range(beam.b, beam.h0()) + beam.concrete.grade);
            self.add_if(beam.bf > beam.b, FLANGE, 10 * beam.kind());
            self.add_if(beam.is_shallow(), SHALLOW, 10 * beam.kind());
        }
    }

    /// A beam that fails 6.3.1v alone, with V next to its limit; `row` is its kind's.
    fn beyond_web(&mut self, beam: &Beam, row: usize) {
        let (upper, lower) = beam.web_limit();
        let place = place(beam.b, beam.h0());
        if lower * (beam.shear - 1) > upper {
            return;
        }
        let was_equal = lower * (beam.shear - 1) == upper;
        self.add(if was_equal { ABOVE_EQUAL[row] } else { ABOVE[row] }, place);
        self.add(GRADE_ABOVE[row], 100 * range(beam.b, beam.h0()) + beam.concrete.grade);
        self.add_if(beam.bf > beam.b, FLANGE, 10 * beam.kind() + 1);
        self.add_if(beam.is_shallow(), SHALLOW, 10 * beam.kind() + 1);
    }

    /// Notes a beam of this kind whose line names 6.3.1v when it is given so.
    pub fn note_web_named(&mut self, kind: u32, entry: Entry) {
        self.add(NAMED, u64::from(10 * kind) + entry as u64);
    }

    /// Notes a beam of this kind that fails 6.3.1v, whose moment alone has a share.
    pub fn note_moment_share(&mut self, kind: u32) {
        self.add(SHARE, u64::from(kind));
    }
}

/// Every case of 6.3.1v that a comparison is to reach.
pub fn required_of_webs() -> Vec<Case> {
    let mut cases = vec![(Check::WebCrushing.name(), 4)];
    let mut put = |about, variants: &[u64]| {
        cases.extend(variants.iter().map(|&variant| (about, variant)));
    };
    for about in [BELOW, EQUAL, HIGHEST, ABOVE_EQUAL, ABOVE].concat() {
        put(about, &PLACES);
    }
    let by_grade: Vec<u64> =
        [400, 500, 600].iter().flat_map(|range| grades().map(|grade| range + grade)).collect();
    for about in [GRADE, GRADE_ABOVE].concat() {
        put(about, &by_grade);
    }
    for about in LIMITS {
        put(about, &[40, 41, 42, 43, 50, 51, 52, 53, 60, 61, 62, 63]);
    }
    put(FLANGE, &[10, 11, 40, 41]);
    put(SHALLOW, &[10, 11, 40, 41]);
    put(MOMENT_FIRST, &[12, 13, 42, 43]);
    for about in [NO_SHEAR, MOST_SHEAR, SHARE] {
        put(about, &[1, 4]);
    }
    put(NAMED, &[11, 12, 13, 41, 42, 43]);
    cases
}
