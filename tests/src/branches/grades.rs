//! Which cases of the grades were reached (document 02, wish 7). Where a name says nothing else, a variant is 1000 times
//! the kind, 100 times the code of the steel, and the grade.

use super::{grades, Case, Entry, Tally};
use crate::make::grades::{grade, REFUSED};
use crate::make::Record;
use crate::model::beam::Beam;
use crate::model::column::Column;
use crate::model::mesh::{Mesh, SCALE};
use crate::model::outcome::{Check, Outcome};
use crate::model::parameters::{depth_limit, Parameters, Ratio};
use crate::model::tables;

const ACCEPTED: &str = "grade accepted (1000 kind + 100 entry + grade)";
const TURNED_AWAY: &str = "7, grade (100 grade + 10 kind + entry)";

/// Without and with compression bars: one bar of the thinnest more or less, or one mm of height.
const HOLDS: [&str; 2] =
    ["4.2.2-3 holds, not with a bar more", "S' 4.2.2-3 holds, not with a bar more"];
const FAILS: [&str; 2] =
    ["4.2.2-3 fails, not with a bar less", "S' 4.2.2-3 fails, not with a bar less"];
const HOLDS_BY_HEIGHT: [&str; 2] =
    ["4.2.2-3 holds, not with h a mm less", "S' 4.2.2-3 holds, not with h a mm less"];
const FAILS_BY_HEIGHT: [&str; 2] =
    ["4.2.2-3 fails, not with h a mm more", "S' 4.2.2-3 fails, not with h a mm more"];
/// Question 10 refuses one bar more.
const MOST_STEEL: &str = "4.2.2-3 holds with the most bars of 10";

/// What would decide otherwise in the place of 4.2.2-3's limit.
const BY_BEFORE: &str = "4.2.2-3 not by the limit of a grade less";
const BY_NEXT: &str = "4.2.2-3 not by the limit of a grade more";
const BY_TABLE: &str = "4.2.2-3 not by e";
const BY_FORMULA: &str = "4.2.2-3 not by GB's limit";
const BY_PLAIN_STRESS: &str = "4.2.2-3 not without alpha1";

/// M at the capacity, and one above it: of 4.2.2 without and with compression bars, and of 4.2.3.
const MOMENT: [&str; 3] = ["4.2.2 M at, grade", "S' 4.2.2 M at, grade", "4.2.3 M at, grade"];
const MOMENT_ABOVE: [&str; 3] =
    ["4.2.2 M one above, grade", "S' 4.2.2 M one above, grade", "4.2.3 M one above, grade"];
/// The name is printed, and a' is above 100, so that a mm is less than a hundredth of it.
const BORDER: &str = "4.2.2 named, not with a' a mm more";
const BORDER_BELOW: &str = "4.2.3 named, not with a' a mm less";
const BORDER_PLAIN: &str = "4.2.2 named, not without alpha1 in 2a'k";
const BORDER_EQUAL: &str = "4.2.2 named at t = 2a'k, grade";

const WEB: &str = "6.3.1v by beta c (1000 kind + 100 range + grade)";
const SHEAR: &str = "4.3.3 V at, grade";
const SHEAR_ABOVE: &str = "4.3.3 V one above, grade";
const SERVICE: &str = "4.5.1 reached with psi between, grade";
const AXIAL: &str = "4.2.4 N at, grade";
const AXIAL_ABOVE: &str = "4.2.4 N one above, grade";

/// Above C40, by C40's multiple: given at the required length, and one below.
const ANCHORAGE: &str = "5.2.5 at (1000 family + 100 cross bar + grade)";
const ANCHORAGE_BELOW: &str = "5.2.5 below (1000 family + 100 cross bar + grade)";
const LAP: &str = "5.3.7 at (1000 family + 100 stacked + grade)";
const LAP_BELOW: &str = "5.3.7 below (1000 family + 100 stacked + grade)";

fn variant(beam: &Beam) -> u64 {
    1000 * beam.kind() + 100 * beam.steel.code + beam.concrete.grade
}

/// The beam with this much more tension steel, or less.
fn with_steel(beam: &Beam, more: i64) -> Beam {
    let mut beam = *beam;
    beam.tension.area = beam.tension.area.saturating_add_signed(more);
    beam
}

/// The limit that 4.2.2-3 has at another grade.
fn limit_at(beam: &Beam, grade: u64) -> Option<Ratio> {
    Some(Parameters::of(tables::concrete(grade)?, beam.steel).depth)
}

impl Tally {
    /// Notes a member that an entry accepts.
    pub fn note_grade(&mut self, record: &Record, entry: Entry) {
        self.add(ACCEPTED, u64::from(1000 * record.kind + grade(record)) + 100 * entry as u64);
    }

    /// Notes a member that an entry refuses by its grade.
    pub fn note_refused_grade(&mut self, record: &Record, entry: Entry) {
        let variant = 100 * u64::from(grade(record)) + u64::from(10 * record.kind) + entry as u64;
        self.add(TURNED_AWAY, variant);
    }

    /// Notes the cases of a beam, of either kind, that reaches 4.2.2-3.
    pub(super) fn grade_of_beam(&mut self, beam: &Beam, outcome: &Outcome) {
        if outcome.failed == Some(Check::MinimumSteel) {
            return;
        }
        self.depth_limit(beam);
        self.other_depth_limits(beam);
        let figures = outcome.figures();
        if let Some(&capacity) = figures.first() {
            self.moment_of_grade(beam, capacity);
        }
        let (upper, lower) = beam.unreduced_web_limit();
        let range = super::webs::range(beam.b, beam.h0());
        self.add_if(
            outcome.failed == Some(Check::WebCrushing) && beam.shear == upper / lower,
            WEB,
            1000 * beam.kind() + 100 * range + beam.concrete.grade,
        );
        if let Some(&capacity) = figures.get(1) {
            self.add_if(beam.shear == capacity, SHEAR, variant(beam));
            self.add_if(beam.shear == capacity + 1, SHEAR_ABOVE, variant(beam));
        }
        if figures.len() == 4 {
            let cracked = beam.cracked();
            let least = cracked.stress.div_ceil(5);
            let is_between = least < cracked.reduced && cracked.reduced < cracked.stress;
            self.add_if(is_between, SERVICE, variant(beam));
        }
    }

    /// A beam next to the limit of 4.2.2-3.
    fn depth_limit(&mut self, beam: &Beam) {
        let row = usize::from(beam.compression.groups > 0);
        let bar = tables::area(beam.tension.smallest).expect("a bar") as i64;
        let (more, less) = (with_steel(beam, bar), with_steel(beam, -bar));
        let higher = Beam { h: beam.h + 1, ..*beam };
        let lower = Beam { h: beam.h - 1, ..*beam };
        let variant = variant(beam);
        if !beam.is_within_depth_limit() {
            self.add_if(less.is_within_depth_limit(), FAILS[row], variant);
            self.add_if(higher.is_within_depth_limit(), FAILS_BY_HEIGHT[row], variant);
            return;
        }
        self.add_if(!more.is_within_depth_limit(), HOLDS[row], variant);
        self.add_if(!lower.is_within_depth_limit(), HOLDS_BY_HEIGHT[row], variant);
        self.add_if(5 * more.tension.area > 2 * beam.b * beam.h0(), MOST_STEEL, variant);
    }

    /// A beam for which another limit than 4.2.2-3's would decide otherwise.
    fn other_depth_limits(&mut self, beam: &Beam) {
        let grade = beam.concrete.grade;
        let Parameters { stress, depth: (upper, lower), .. } = beam.parameters();
        let table = (beam.steel.depth, 100);
        let others = [
            (BY_BEFORE, limit_at(beam, grade - 5)),
            (BY_NEXT, limit_at(beam, grade + 5)),
            (BY_TABLE, Some(table)),
            (BY_FORMULA, (grade <= 50).then(|| depth_limit(0, beam.steel.fy))),
            (BY_PLAIN_STRESS, Some((100 * upper, stress * lower))),
        ];
        for (about, limit) in others {
            let holds = limit.map(|limit| beam.is_within_depth(limit));
            self.add_if(holds == Some(!beam.is_within_depth_limit()), about, variant(beam));
        }
    }

    /// M next to the capacity, and the choice between 4.2.2 and 4.2.3.
    fn moment_of_grade(&mut self, beam: &Beam, capacity: u64) {
        let doubled = beam.compression.groups > 0;
        let row = usize::from(doubled) + usize::from(beam.is_shallow());
        let variant = variant(beam);
        self.add_if(beam.moment == capacity, MOMENT[row], variant);
        self.add_if(beam.moment == capacity + 1, MOMENT_ABOVE[row], variant);
        if beam.moment <= capacity || !doubled {
            return;
        }
        let distance = beam.cover_compression;
        let at = |cover_compression| Beam { cover_compression, ..*beam };
        let force = 100 * beam.net_force();
        let edge = |stress| (2 * distance * stress * beam.concrete.fc * beam.b) as i64;
        if beam.is_shallow() {
            let is_next = distance > 100 && !at(distance - 1).is_shallow();
            self.add_if(is_next, BORDER_BELOW, variant);
        } else {
            let is_last = distance > 100 && at(distance + 1).is_shallow();
            self.add_if(is_last, BORDER, variant);
            self.add_if(force < edge(100), BORDER_PLAIN, variant);
            self.add_if(force == edge(beam.parameters().stress), BORDER_EQUAL, variant);
        }
    }

    /// Notes N next to the capacity of a column.
    pub(super) fn grade_of_column(&mut self, column: &Column, outcome: &Outcome) {
        if let Some(&capacity) = outcome.figures().first() {
            let variant = 2000 + 100 * column.steel.code + column.concrete.grade;
            self.add_if(column.axial == capacity, AXIAL, variant);
            self.add_if(column.axial == capacity + 1, AXIAL_ABOVE, variant);
        }
    }

    /// Notes a mesh above C40 whose lengths its multiple decides: from d = 10 on they are above the least ones.
    pub(super) fn grade_of_mesh(&mut self, mesh: &Mesh, outcome: &Outcome) {
        if mesh.concrete.grade <= 40 || mesh.diameter < 10 {
            return;
        }
        let row = |cross: bool| 1000 * mesh.family + 100 * u64::from(cross) + mesh.concrete.grade;
        let anchorage = mesh.scaled_anchorage().div_ceil(SCALE);
        self.add_if(mesh.anchorage_given == anchorage, ANCHORAGE, row(mesh.cross_bar));
        self.add_if(mesh.anchorage_given + 1 == anchorage, ANCHORAGE_BELOW, row(mesh.cross_bar));
        if outcome.figures().len() == 2 {
            let lap = mesh.scaled_lap().div_ceil(SCALE);
            self.add_if(mesh.lap_given == lap, LAP, row(!mesh.flat));
            self.add_if(mesh.lap_given + 1 == lap, LAP_BELOW, row(!mesh.flat));
        }
    }
}

/// Whether 4.2.2-3 can fail: with steel of code 1 question 10 comes first above C65.
fn can_fail(steel: u64, grade: u64) -> bool {
    steel == 2 || grade <= 65
}

/// Variants of these kinds, of each steel and grade that is wanted.
fn variants(kinds: &[u64], wanted: impl Fn(u64, u64) -> bool) -> Vec<u64> {
    let pairs = [1, 2].into_iter().flat_map(|steel| grades().map(|grade| (steel, grade)));
    let pairs: Vec<(u64, u64)> = pairs.filter(|(steel, grade)| wanted(*steel, *grade)).collect();
    let of = |kind: &u64| pairs.iter().map(|(s, g)| 1000 * kind + 100 * s + g).collect();
    kinds.iter().flat_map::<Vec<u64>, _>(of).collect()
}

/// Kinds 1 and 4.
const BEAMS: [u64; 2] = [1, 4];

/// Every case of the grades that a comparison is to reach.
pub fn required_of_grades() -> Vec<Case> {
    let mut cases = Vec::new();
    let mut put = |about, variants: &[u64]| {
        cases.extend(variants.iter().map(|&variant| (about, variant)));
    };
    put_entry_cases(&mut put);
    put_depth_cases(&mut put);
    put_moment_cases(&mut put);
    for about in [SHEAR, SHEAR_ABOVE, SERVICE] {
        put(about, &variants(&BEAMS, |_, _| true));
    }
    for about in [AXIAL, AXIAL_ABOVE] {
        put(about, &variants(&[2], |_, _| true));
    }
    let above = |least| grades().into_iter().filter(move |grade| *grade > least);
    let rows = [1000, 1100, 2000, 2100];
    let rows: Vec<u64> = above(40).flat_map(|grade| rows.map(|row| row + grade)).collect();
    for about in [ANCHORAGE, ANCHORAGE_BELOW, LAP, LAP_BELOW] {
        put(about, &rows);
    }
    let webs = [1400, 1500, 1600, 4400, 4500, 4600];
    let webs: Vec<u64> = above(50).flat_map(|grade| webs.map(|web| web + grade)).collect();
    put(WEB, &webs);
    cases
}

/// Every grade that question 7 takes, and those tried that it refuses, for each kind and entry.
fn put_entry_cases(put: &mut impl FnMut(&'static str, &[u64])) {
    for (kind, entry) in [1, 2, 3, 4].into_iter().flat_map(|kind| [1, 2, 3].map(|e| (kind, e))) {
        put(ACCEPTED, &grades().map(|grade| 1000 * kind + 100 * entry + grade));
        put(TURNED_AWAY, &REFUSED.map(|grade| 100 * u64::from(grade) + 10 * kind + entry));
    }
}

fn put_depth_cases(put: &mut impl FnMut(&'static str, &[u64])) {
    let failing = variants(&BEAMS, can_fail);
    for about in [HOLDS, FAILS, HOLDS_BY_HEIGHT, FAILS_BY_HEIGHT].concat() {
        put(about, &failing);
    }
    put(MOST_STEEL, &variants(&BEAMS, |steel, grade| !can_fail(steel, grade)));
    let high = variants(&BEAMS, |steel, grade| grade > 50 && can_fail(steel, grade));
    for about in [BY_BEFORE, BY_TABLE, BY_PLAIN_STRESS] {
        put(about, &high);
    }
    // The limit of C80 is no less than what question 10 takes at C75 with steel of code 1.
    let next = |steel, grade| (50..80).contains(&grade) && (steel, grade) != (1, 75);
    put(BY_NEXT, &variants(&BEAMS, next));
    put(BY_FORMULA, &variants(&BEAMS, |_, grade| grade <= 50));
}

fn put_moment_cases(put: &mut impl FnMut(&'static str, &[u64])) {
    let all = variants(&BEAMS, |_, _| true);
    for about in [MOMENT, MOMENT_ABOVE].concat() {
        put(about, &all);
    }
    for about in [BORDER, BORDER_BELOW, BORDER_EQUAL] {
        put(about, &all);
    }
    put(BORDER_PLAIN, &variants(&BEAMS, |_, grade| grade > 50));
}
