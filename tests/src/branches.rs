//! Which cases of document 01 the compared members reached, and of what the requests add.

mod grades;
mod moments;
mod points;
mod webs;
mod written;

use std::collections::BTreeMap;

use crate::make::beams::{around, GRADES};
use crate::make::hunts::turns_on_u;
use crate::model::beam::Beam;
use crate::model::column::Column;
use crate::model::member::{Body, Member};
use crate::model::mesh::{Mesh, SCALE};
use crate::model::outcome::{Check, Outcome};

pub use grades::required_of_grades;
pub use moments::required_of_moments;
pub use points::{point_load_cases, required_of_point_loads};
pub use webs::required_of_webs;
pub use written::required_of_writer;

/// A case: what it is about, and which of its variants.
pub type Case = (&'static str, u64);

/// How a member is given: in a file, built, as words.
#[derive(Clone, Copy, PartialEq)]
pub enum Entry {
    File = 1,
    Built = 2,
    Words = 3,
}

pub const ENTRIES: [Entry; 3] = [Entry::File, Entry::Built, Entry::Words];

#[derive(Default)]
pub struct Tally {
    counts: BTreeMap<Case, u64>,
}

fn row(h: u64) -> u64 {
    match h {
        0..=300 => 300,
        301..=500 => 500,
        501..=800 => 800,
        _ => 801,
    }
}

impl Tally {
    pub fn add(&mut self, about: &'static str, variant: u64) {
        *self.counts.entry((about, variant)).or_insert(0) += 1;
    }

    fn add_if(&mut self, condition: bool, about: &'static str, variant: u64) {
        if condition {
            self.add(about, variant);
        }
    }

    pub fn count(&self, case: Case) -> u64 {
        self.counts.get(&case).copied().unwrap_or(0)
    }

    pub fn iter(&self) -> impl Iterator<Item = (&Case, &u64)> {
        self.counts.iter()
    }

    /// The cases, of those required, that were not reached.
    pub fn missing(&self, required: Vec<Case>) -> Vec<Case> {
        required.into_iter().filter(|case| self.count(*case) == 0).collect()
    }

    /// Notes the cases that a member's checks went through. Those of kind 4 are its own.
    pub fn note(&mut self, member: &Member, outcome: &Outcome) {
        match outcome.failed {
            Some(check) => self.add(check.name(), if member.kind() == 4 { 4 } else { 0 }),
            None => self.add("OK", member.kind()),
        }
        match &member.body {
            Body::Beam(beam) => {
                self.web(beam, outcome);
                self.grade_of_beam(beam, outcome);
                match beam.load_distance {
                    Some(distance) => self.point_loaded(beam, distance, outcome),
                    None => self.beam(beam, outcome),
                }
            }
            Body::Column(column) => {
                self.grade_of_column(column, outcome);
                self.column(column, outcome);
            }
            Body::Mesh(mesh) => {
                self.grade_of_mesh(mesh, outcome);
                self.mesh(mesh, outcome);
            }
        }
    }

    fn beam(&mut self, beam: &Beam, outcome: &Outcome) {
        let (steel, gross) = (beam.tension.area, beam.gross_area());
        let least = 45 * beam.concrete.ft * gross;
        self.add_if(beam.has_minimum_steel() && 50 * steel == gross, "6.3.1 at 0.2 percent", 0);
        self.add_if(
            beam.has_minimum_steel() && 1000 * steel * beam.steel.fy == least,
            "6.3.1 at 45 ft/fy",
            0,
        );
        self.add_if(50 * steel >= gross && !beam.has_minimum_steel(), "6.3.1 by 45 ft/fy", 0);
        let figures = outcome.figures();
        if let Some(&capacity) = figures.first() {
            self.moment(beam, capacity);
        }
        if let Some(&capacity) = figures.get(1) {
            self.around("4.3.3", capacity, beam.shear);
            if capacity >= beam.shear {
                self.links(beam, outcome);
            }
        }
        if let Some(&width) = figures.get(2) {
            self.width(beam, width);
        }
        if let Some(&deflection) = figures.get(3) {
            self.deflection(beam, deflection);
        }
    }

    /// A demand at its capacity, and one above it.
    fn around(&mut self, check: &'static str, capacity: u64, demand: u64) {
        let names = match check {
            "4.2.2" => ["4.2.2 M at", "4.2.2 M one above"],
            "4.2.3" => ["4.2.3 M at", "4.2.3 M one above"],
            "4.3.3" => ["4.3.3 V at", "4.3.3 V one above"],
            _ => ["4.2.4 N at", "4.2.4 N one above"],
        };
        self.add_if(demand == capacity, names[0], 0);
        self.add_if(demand == capacity + 1, names[1], 0);
    }

    fn moment(&mut self, beam: &Beam, capacity: u64) {
        self.add_if(beam.moment_quasi == beam.moment, "Mq at M", 0);
        let net = 100 * beam.net_force();
        let edge = (2 * beam.cover_compression * beam.block_force()) as i64;
        let doubled = beam.compression.groups > 0;
        let (upper, lower) = beam.parameters().depth;
        let depth = (upper * beam.h0() * beam.block_force()) as i64;
        self.add_if(lower as i64 * net == depth, "4.2.2-3 at", 0);
        self.add_if(!doubled, "4.2.2 without compression bars", 0);
        self.add_if(doubled && net > edge, "4.2.2 with compression bars", 0);
        self.add_if(doubled && net == edge, "4.2.2 at t = 2a'k", 0);
        let failed = capacity < beam.moment;
        self.add_if(doubled && net == edge && failed, "4.2.2 failed at t = 2a'k", 0);
        self.add_if(doubled && net < edge, "4.2.3 reached", 0);
        self.add_if(net < 0, "4.2.3 with t below 0", 0);
        self.add("steel code, fyk", beam.steel.fyk);
        self.add("beam concrete", beam.concrete.grade);
        self.add("tension groups", u64::from(beam.tension.groups));
        self.add("compression groups", u64::from(beam.compression.groups));
        self.around(if beam.is_shallow() { "4.2.3" } else { "4.2.2" }, capacity, beam.moment);
    }

    fn links(&mut self, beam: &Beam, outcome: &Outcome) {
        let limit = beam.spacing_limit();
        let names = if beam.needs_links() {
            ["5.5.6s links needed, at", "5.5.6s links needed, one above"]
        } else {
            ["5.5.6s otherwise, at", "5.5.6s otherwise, one above"]
        };
        self.add_if(beam.spacing == limit, names[0], row(beam.h));
        self.add_if(beam.spacing == limit + 1, names[1], row(beam.h));
        let height = if beam.needs_links() {
            "5.5.6s links needed, one above, h"
        } else {
            "5.5.6s otherwise, one above, h"
        };
        let edge = [300, 301, 500, 501, 800, 801].contains(&beam.h);
        self.add_if(edge && beam.spacing == limit + 1, height, beam.h);
        self.add_if(1000 * beam.shear == beam.concrete_shear(), "V at 0.7 ft b h0", 0);
        self.add("link steel, fyv", beam.link_steel.fyv);
        if outcome.failed == Some(Check::LinkSpacing) {
            return;
        }
        let provided = 1000 * beam.link_area() * beam.link_steel.fyv;
        let least = 24 * beam.concrete.ft * beam.b * beam.spacing;
        self.add_if(beam.needs_links() && provided == least, "5.5.6r at", 0);
        self.add_if(!beam.needs_links() && provided < least, "5.5.6r not put", 0);
        if beam.has_minimum_links() {
            self.stress(beam);
        }
    }

    /// Mq at 4.4.1's limit, at the highest whole number, one above and more, without and with compression bars.
    fn stress(&mut self, beam: &Beam) {
        let limit = beam.stress_limit();
        let highest = limit / 1_000_000;
        let doubled = u64::from(beam.compression.groups > 0);
        self.add_if(1_000_000 * beam.moment_quasi == limit, "4.4.1 at", 0);
        self.add_if(beam.moment_quasi == highest, "4.4.1 highest Mq, compression bars", doubled);
        self.add_if(beam.moment_quasi == highest + 1, "4.4.1 one above, compression bars", doubled);
        self.add_if(beam.moment_quasi > highest + 1, "4.4.1 more above, compression bars", doubled);
    }

    fn width(&mut self, beam: &Beam, width: u64) {
        let cracked = beam.cracked();
        let factor = if cracked.reduced == cracked.stress {
            10
        } else if cracked.reduced == cracked.stress.div_ceil(5) {
            2
        } else {
            5
        };
        self.add("psi, tenths (5: between)", factor);
        self.add(
            "cover held (0 below 20, 2 above 65)",
            match beam.cover {
                0..=19 => 0,
                20..=65 => 1,
                _ => 2,
            },
        );
        self.add("4.4.2 environment", beam.environment);
        self.add_if(beam.bf > beam.b, "4.4.2 with flange", 0);
        self.add_if(width == beam.width_limit(), "4.4.2 width at limit", width);
        self.add_if(width == beam.width_limit() + 1, "4.4.2 width one above", width);
    }

    fn deflection(&mut self, beam: &Beam, deflection: u64) {
        let span = match beam.span {
            0..=6999 => 6999,
            7000 => 7000,
            7001..=8999 => 8000,
            9000 => 9000,
            _ => 9001,
        };
        self.add(if beam.strict { "4.5.1 strict, span" } else { "4.5.1 span" }, span);
        let share = match (beam.compression.area, beam.tension.area) {
            (0, _) => 0,
            (compression, tension) if compression < tension => 1,
            _ => 2,
        };
        let flange = if beam.bf > beam.b { "theta, flange, S'" } else { "theta, S'" };
        self.add(flange, share);
        let limit = 100 * beam.span / beam.deflection_divisor();
        self.add_if(deflection == limit, "4.5.1 at limit", 0);
        self.add_if(turns_on_u(beam), "4.5.1 by the rounding of u", 0);
        self.add_if(deflection == limit + 1, "4.5.1 one above", 0);
    }

    fn column(&mut self, column: &Column, outcome: &Outcome) {
        let (steel, section) = (column.bars.area, column.b * column.h);
        self.add_if(2 * steel == section, "5.6.1 at", 0);
        if outcome.failed == Some(Check::MaximumSteel) {
            return;
        }
        self.column_links(column);
        if outcome.failed == Some(Check::ColumnLinks) {
            return;
        }
        self.add_if(column.length == 50 * column.b + 1, "4.2.4s one above 50b", 0);
        let Some(&capacity) = outcome.figures().first() else {
            return;
        };
        self.add("column groups", u64::from(column.bars.groups));
        self.add("column concrete", column.concrete.grade);
        self.add("axial strength", column.steel.axial);
        self.add_if(10 * steel == 3 * section, "3 percent exactly", 0);
        self.add_if(10 * steel > 3 * section, "3 percent above", 0);
        self.add_if(10 * steel < 3 * section, "3 percent below", 0);
        self.add_if(column.length < 8 * column.b, "phi below l0/b", 8);
        if column.length >= 8 * column.b {
            let point = column.length / (2 * column.b) * 2;
            let exact = column.length == point * column.b;
            self.add(if exact { "phi at l0/b" } else { "phi above l0/b" }, point);
        }
        self.around("4.2.4", capacity, column.axial);
    }

    fn column_links(&mut self, column: &Column) {
        self.add_if(4 * column.link_diameter == column.bars.largest, "5.6.2 diameter at", 0);
        self.add_if(4 * column.link_diameter < column.bars.largest, "5.6.2 diameter below", 0);
        let bars = 15 * column.bars.smallest;
        let limits = [
            (400, "5.6.2 spacing 400"),
            (column.b, "5.6.2 spacing b"),
            (bars, "5.6.2 spacing 15d"),
        ];
        let least = 400.min(column.b).min(bars);
        for (limit, name) in limits.into_iter().filter(|(limit, _)| *limit == least) {
            self.add_if(column.link_spacing == limit, name, 0);
            self.add_if(column.link_spacing == limit + 1, name, 1);
        }
    }

    fn mesh(&mut self, mesh: &Mesh, outcome: &Outcome) {
        let anchorage = mesh.scaled_anchorage();
        let required = anchorage.div_ceil(SCALE);
        self.add("5.2.5 row (family, cross bar, concrete)", mesh_row(mesh, mesh.cross_bar));
        self.add("paired 1, apart 2, both 3", u64::from(mesh.paired) + 2 * u64::from(mesh.apart));
        self.add("seismic", mesh.seismic);
        self.add_if(anchorage == 200 * SCALE, "5.2.5 held at 200", 0);
        self.add_if(anchorage < required * SCALE, "5.2.5 rounded up", 0);
        self.add_if(mesh.anchorage_given == required, "5.2.5 at", 0);
        self.add_if(mesh.anchorage_given + 1 == required, "5.2.5 one below", 0);
        if is_by_multiple(mesh) && !mesh.cross_bar {
            self.given(WORKS_ANCHORAGE, mesh.anchorage_given, required);
        }
        if outcome.figures().len() == 2 {
            self.lap(mesh);
        }
    }

    fn lap(&mut self, mesh: &Mesh) {
        let lap = mesh.scaled_lap();
        let required = lap.div_ceil(SCALE);
        self.add("5.3.7 row (family, stacked, concrete)", mesh_row(mesh, !mesh.flat));
        self.add(if mesh.compression { "5.3.7 compression, d" } else { "5.3.7 d" }, mesh.diameter);
        let plain = mesh.flat && !mesh.compression && mesh.diameter < 12;
        self.add_if(plain && lap == 300 * SCALE, "5.3.7 held at 300", 0);
        self.add_if(lap < required * SCALE, "5.3.7 rounded up", 0);
        self.add_if(mesh.lap_given == required, "5.3.7 at", 0);
        self.add_if(mesh.lap_given + 1 == required, "5.3.7 one below", 0);
        if is_by_multiple(mesh) {
            let about = if mesh.flat { WORKS_FLAT_LAP } else { WORKS_STACKED_LAP };
            self.given(about, mesh.lap_given, required);
        }
    }

    /// A given length one below the required one (0), at it (1) or one above (2).
    fn given(&mut self, about: &'static str, given: u64, required: u64) {
        for (length, variant) in around(required).into_iter().zip(0..) {
            self.add_if(given == length, about, variant);
        }
    }
}

const WORKS_ANCHORAGE: &str = "5.2.5 by 48d, given";
const WORKS_FLAT_LAP: &str = "5.3.7 by 48d, given";
const WORKS_STACKED_LAP: &str = "5.3.7 by 34d, given";

/// Family 2 at C25, where the works has a multiple of its own (document 02, wish 1).
pub fn is_family_2_at_c25(mesh: &Mesh) -> bool {
    mesh.family == 2 && mesh.concrete.grade == 25
}

/// Such a mesh whose lengths the multiple decides: at d = 5 it may be the least length of 200 mm.
fn is_by_multiple(mesh: &Mesh) -> bool {
    is_family_2_at_c25(mesh) && mesh.diameter > 5
}

/// A row and column of the anchorage table.
fn mesh_row(mesh: &Mesh, cross_bar: bool) -> u64 {
    1000 * mesh.family + 100 * u64::from(cross_bar) + mesh.concrete.grade.min(40)
}

/// Every grade.
fn grades() -> [u64; 13] {
    GRADES.map(u64::from)
}

/// Every case of the kinds 1 to 3 that a comparison is to reach.
pub fn required() -> Vec<Case> {
    let mut cases: Vec<Case> = Check::ALL.iter().map(|check| (check.name(), 0)).collect();
    let mut put = |about, variants: &[u64]| {
        cases.extend(variants.iter().map(|&variant| (about, variant)));
    };
    put("OK", &[1, 2, 3]);
    put_beam_cases(&mut put);
    put_column_cases(&mut put);
    put_mesh_cases(&mut put);
    cases
}

/// Cases of beams without variants.
const BEAM_CASES: [&str; 25] = [
    "6.3.1 at 0.2 percent",
    "6.3.1 at 45 ft/fy",
    "6.3.1 by 45 ft/fy",
    "4.2.2-3 at",
    "4.2.2 without compression bars",
    "4.2.2 with compression bars",
    "4.2.2 at t = 2a'k",
    "4.2.3 reached",
    "4.2.3 with t below 0",
    "4.2.2 M at",
    "4.2.2 M one above",
    "4.2.3 M at",
    "4.2.3 M one above",
    "4.3.3 V at",
    "4.3.3 V one above",
    "V at 0.7 ft b h0",
    "5.5.6r at",
    "5.5.6r not put",
    "Mq at M",
    "4.4.1 at",
    "4.4.2 with flange",
    "4.5.1 at limit",
    "4.5.1 by the rounding of u",
    "4.2.2 failed at t = 2a'k",
    "4.5.1 one above",
];

fn put_beam_cases(put: &mut impl FnMut(&'static str, &[u64])) {
    BEAM_CASES.into_iter().for_each(|about| put(about, &[0]));
    put("4.4.1 highest Mq, compression bars", &[0, 1]);
    put("4.4.1 one above, compression bars", &[0, 1]);
    put("4.4.1 more above, compression bars", &[0, 1]);
    put("steel code, fyk", &[400, 500]);
    put("link steel, fyv", &[270, 360]);
    put("beam concrete", &grades());
    put("tension groups", &[1, 2, 3, 4]);
    put("compression groups", &[0, 1, 2, 3, 4]);
    put("5.5.6s links needed, at", &[300, 500, 800, 801]);
    put("5.5.6s links needed, one above", &[300, 500, 800, 801]);
    put("5.5.6s otherwise, at", &[300, 500, 800, 801]);
    // The last row's limit is the field's largest value.
    put("5.5.6s otherwise, one above", &[300, 500, 800]);
    put("5.5.6s links needed, one above, h", &[300, 301, 500, 501, 800, 801]);
    put("5.5.6s otherwise, one above, h", &[300, 301, 500, 501, 800]);
    put("psi, tenths (5: between)", &[2, 5, 10]);
    put("cover held (0 below 20, 2 above 65)", &[0, 1, 2]);
    put("4.4.2 environment", &[1, 2, 3]);
    put("4.4.2 width at limit", &[200, 300]);
    put("4.4.2 width one above", &[201, 301]);
    put("4.5.1 span", &[6999, 7000, 8000, 9000, 9001]);
    put("4.5.1 strict, span", &[6999, 7000, 8000, 9000, 9001]);
    put("theta, S'", &[0, 1, 2]);
    put("theta, flange, S'", &[0, 1, 2]);
}

fn put_column_cases(put: &mut impl FnMut(&'static str, &[u64])) {
    let single = [
        "5.6.1 at",
        "5.6.2 diameter at",
        "5.6.2 diameter below",
        "4.2.4s one above 50b",
        "3 percent exactly",
        "3 percent above",
        "3 percent below",
        "4.2.4 N at",
        "4.2.4 N one above",
    ];
    single.into_iter().for_each(|about| put(about, &[0]));
    for about in ["5.6.2 spacing 400", "5.6.2 spacing b", "5.6.2 spacing 15d"] {
        put(about, &[0, 1]);
    }
    put("column groups", &[1, 2, 3, 4]);
    put("column concrete", &grades());
    put("axial strength", &[360, 400]);
    put("phi below l0/b", &[8]);
    let points: Vec<u64> = (4..=25).map(|half| 2 * half).collect();
    put("phi at l0/b", &points);
    put("phi above l0/b", &points[..21]);
}

fn put_mesh_cases(put: &mut impl FnMut(&'static str, &[u64])) {
    let single = [
        "5.2.5 held at 200",
        "5.2.5 at",
        "5.2.5 one below",
        "5.2.5 rounded up",
        "5.3.7 held at 300",
        "5.3.7 at",
        "5.3.7 one below",
        "5.3.7 rounded up",
    ];
    single.into_iter().for_each(|about| put(about, &[0]));
    let rows: Vec<u64> = [1000, 1100, 2000, 2100]
        .into_iter()
        .flat_map(|row| [20, 25, 30, 35, 40].map(|grade| row + grade))
        .collect();
    put("5.2.5 row (family, cross bar, concrete)", &rows);
    put("5.3.7 row (family, stacked, concrete)", &rows);
    put("paired 1, apart 2, both 3", &[0, 1, 2, 3]);
    put("seismic", &[0, 1, 2, 3, 4]);
    put("5.3.7 d", &[5, 6, 8, 10, 12, 14, 16]);
    put("5.3.7 compression, d", &[5, 6, 8, 10, 12, 14, 16]);
    for about in [WORKS_ANCHORAGE, WORKS_FLAT_LAP, WORKS_STACKED_LAP] {
        put(about, &[0, 1, 2]);
    }
}
