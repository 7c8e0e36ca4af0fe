//! Beams at the edges of 6.3.1v, V at most β·βc·fc·b·h0 (document 02, wishes 6 and 7).

use super::beams::{area, around, as_beam, DIAMETERS, GRADES};
use super::points::first_beam;
use super::record::place::beam::*;
use super::{random_beam, Random, Record};
use crate::model::beam::Beam;
use crate::model::built::Group;

/// The largest V.
pub const MOST: u64 = 100_000_000;

/// Links with which 4.3.3 holds in every web, up to V at 6.3.1v's limit: diameter, legs, spacing and steel.
pub const HEAVY: [u64; 4] = [12, 8, 50, 2];
/// Links with which 4.3.3 fails at 6.3.1v's limit in every web.
pub const LIGHT: [u64; 4] = [6, 2, 400, 1];

/// The beam with these links.
pub fn with_links(record: &Record, links: [u64; 4]) -> Record {
    let fields = [LINK, LEGS, SPACING, LINK_STEEL];
    fields.into_iter().zip(links).fold(record.clone(), |record, (at, value)| record.with(at, value))
}

/// Three or more bars of one diameter, 0.7 to 1 percent of b·h0: 6.3.1 and 4.2.2-3 hold with them at every grade.
fn bars(b: u64, h0: u64) -> Vec<Group> {
    let wanted = 7 * b * h0 / 100;
    let count = |diameter| wanted.div_ceil(area(diameter)) as u32;
    let diameter = DIAMETERS.into_iter().find(|&diameter| count(diameter) <= 4).unwrap_or(50);
    vec![Group { diameter, bars: count(diameter) }]
}

/// A beam of this web with the least moments, no V and heavy links; it is OK.
pub fn web(b: u64, h0: u64, grade: u32) -> Record {
    let head = [b as u32, h0 as u32 + 40, b as u32, 0, 40, 0, grade, 1];
    let mut record = Record::beam(1, head, &[], &[], [0, 0, 0, 0, 25, 2000, 1, 1, 0, 1, 0]);
    record.first = bars(b, h0);
    record.count_groups();
    with_links(&record, HEAVY)
}

/// The beam with a flange.
pub fn flanged(record: &Record) -> Record {
    record.with(BF, 3 * u64::from(record.fields[B])).with(HF, 50)
}

/// The beam with so much compression steel that 4.2.3 takes 4.2.2's place.
pub fn doubled(record: &Record) -> Record {
    let mut record = record.with(A2, 35);
    record.second = record.first.clone();
    record.count_groups();
    record
}

/// The largest V with which 6.3.1v holds.
fn highest(beam: &Beam) -> u64 {
    let (upper, lower) = beam.web_limit();
    upper / lower
}

/// The beam with V around 6.3.1v's limit.
fn around_limit(record: &Record) -> [Record; 3] {
    let beam = as_beam(record).expect("an accepted beam");
    around(highest(&beam)).map(|shear| record.with(SHEAR, shear))
}

/// The beam with no V and with the largest.
fn extreme_shears(record: &Record) -> [Record; 2] {
    [0, MOST].map(|shear| record.with(SHEAR, shear))
}

/// Depths h0 of a web: h0/b below 4, at 4, between, at 6, above, at 14 (where the line from 4 to 6, drawn on, reaches 0)
/// and above, and one mm next to these.
fn depths(b: u64) -> Vec<u64> {
    let mut depths = vec![6 * b / 5, 2 * b, 3 * b, 5 * b, 11 * b / 2, 7 * b, 8 * b, 15 * b];
    depths.extend([4 * b, 6 * b, 14 * b].into_iter().flat_map(around));
    depths.retain(|h0| (120..=1960).contains(h0));
    depths
}

/// Widths of webs: at each sort of depth the limit is a whole number with some of them, and not with others. At C20 it
/// is with 106 one mm above 4·b and with 103 one mm below 6·b.
const WIDTHS: [u64; 5] = [100, 103, 106, 250, 1000];

/// Webs of every depth, b and h0.
fn webs() -> Vec<(u64, u64)> {
    WIDTHS.into_iter().flat_map(|b| depths(b).into_iter().map(move |h0| (b, h0))).collect()
}

/// The beam as kind 1 and as kind 4, with its point load at this part of the span, in sixths.
pub(super) fn both_kinds(record: &Record, sixths: u64) -> [Record; 2] {
    let span = u64::from(record.fields[SPAN]);
    [record.clone(), record.point_loaded(span * sixths / 6)]
}

/// Beams of a web: with heavy and light links at every grade; at one with a flange, and with 4.2.3 in 4.2.2's place.
fn beams_of_web(b: u64, h0: u64, grade: u32) -> Vec<Record> {
    let mut records: Vec<Record> = GRADES.into_iter().map(|grade| web(b, h0, grade)).collect();
    let light: Vec<Record> = records.iter().map(|record| with_links(record, LIGHT)).collect();
    let heavy = web(b, h0, grade);
    records.extend(light);
    records.extend([flanged(&heavy), doubled(&heavy)]);
    records
}

/// The beam with V above 6.3.1v's limit, and M at its capacity and above.
fn around_capacity(record: &Record) -> [Record; 2] {
    let beam = as_beam(record).expect("an accepted beam");
    let crushed = record.with(SHEAR, highest(&beam) + 1);
    let capacity = beam.moment_capacity();
    [capacity, capacity + 1].map(|moment| crushed.with(MOMENT, moment))
}

/// Beams of both kinds, every grade and every sort of web, with V around 6.3.1v's limit; of each web also with no V and
/// the largest. Grades and places of the load take turns.
pub fn directed() -> Vec<Record> {
    let mut records = Vec::new();
    for (turn, (b, h0)) in webs().into_iter().enumerate() {
        let (grade, sixths) = (GRADES[turn % GRADES.len()], turn as u64 % 7);
        for record in beams_of_web(b, h0, grade) {
            records.extend(both_kinds(&record, sixths).iter().flat_map(around_limit));
        }
        let plain = both_kinds(&web(b, h0, grade), sixths);
        records.extend(plain.iter().flat_map(extreme_shears));
    }
    for record in [web(250, 460, 30), doubled(&web(100, 500, 40))] {
        records.extend(both_kinds(&record, 3).iter().flat_map(around_capacity));
    }
    records
}

/// A width and a depth whose ratio is at or next to 4, 6 or 14, or anywhere.
fn random_web(random: &Random) -> (u64, u64) {
    let b = random.within(100, if random.one_in(4) { 1000 } else { 320 });
    let near = random.pick(&[4 * b, 4 * b, 6 * b, 6 * b, 14 * b]);
    let h0 = match random.below(4) {
        0 => random.within(120, 1960),
        1 => random.within(4 * b, 6 * b),
        _ => random.within(near - 2, near + 2),
    };
    (b, h0.clamp(120, 1960))
}

/// A beam of a random web, or a random beam, with random, heavy or light links.
fn random_base(random: &Random) -> Record {
    let drawn = random_beam(random);
    let record = if random.one_in(3) {
        drawn.with(MOMENT, 1).with(MOMENT_QUASI, 1)
    } else {
        let (b, h0) = random_web(random);
        let beam = web(b, h0, random.pick(&GRADES)).with(STEEL, random.within(1, 2));
        let links = [LINK, LEGS, SPACING, LINK_STEEL].map(|at| u64::from(drawn.fields[at]));
        with_links(&beam, links)
    };
    match random.below(3) {
        0 => record,
        1 => with_links(&record, HEAVY),
        _ => with_links(&record, LIGHT),
    }
}

/// A random beam of either kind with V around 6.3.1v's limit; none where its other fields are refused.
pub fn random_beams(random: &Random) -> Vec<Record> {
    let record = random_base(random);
    let sixths = random.below(7);
    let beams = both_kinds(&record, sixths);
    beams.iter().filter(|beam| as_beam(beam).is_some()).flat_map(around_limit).collect()
}

/// Document 01's beam 1 with heavy links, three tension bars and the least moments; h0 is 460.
pub fn first_web() -> Record {
    let mut record = with_links(&first_beam(), HEAVY).with(MOMENT, 1).with(MOMENT_QUASI, 1);
    record.first[0].bars = 3;
    record
}

/// A beam of C30, 100 mm wide, with two tension bars of 20 mm.
pub fn narrow(h0: u64) -> Record {
    let mut record = web(100, h0, 30);
    record.first = vec![Group { diameter: 20, bars: 2 }];
    record
}

/// Beams in every range of h0/b, each with its line after the mark.
pub fn examples() -> Vec<(Record, &'static str)> {
    let first = |shear| first_web().with(SHEAR, shear);
    let heavy = |h0, shear| narrow(h0).with(SHEAR, shear);
    let light = |h0, shear| with_links(&narrow(h0), LIGHT).with(SHEAR, shear);
    vec![
        (first(411_125), "OK 139989 3111812 1 1"),
        (first(411_126), "6.3.1v 139989 - - -"),
        (first(411_125).point_loaded(6000), "OK 139989 3068643 1 1"),
        (first(411_126).point_loaded(6000), "6.3.1v 139989 - - -"),
        (heavy(400, 143_000), "OK 72595 2645864 1 1"),
        (heavy(400, 143_001), "6.3.1v 72595 - - -"),
        (heavy(401, 143_214).point_loaded(1000), "OK 72821 2641060 1 1"),
        (heavy(401, 143_215).point_loaded(1000), "6.3.1v 72821 - - -"),
        (heavy(500, 160_875), "OK 95217 3307330 1 1"),
        (heavy(500, 160_876), "6.3.1v 95217 - - -"),
        (heavy(600, 171_600), "OK 117840 3968796 1 1"),
        (heavy(600, 171_601), "6.3.1v 117840 - - -"),
        (heavy(1500, 429_000).point_loaded(1000), "OK 321441 9921990 1 1"),
        (heavy(1500, 429_001).point_loaded(1000), "6.3.1v 321441 - - -"),
        (first(411_126).with(MOMENT, 139_990), "4.2.2 139989 - - -"),
        (light(400, 143_000), "4.3.3 72595 55322 - -"),
        (light(400, 1_000_000), "6.3.1v 72595 - - -"),
    ]
}
