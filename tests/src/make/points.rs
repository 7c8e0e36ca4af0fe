//! Point-loaded beams (kind 4): random ones, and ones at the edges of what their kind adds.

use super::beams::{around, as_beam, random_beam, GRADES};
use super::record::place::beam::*;
use super::record::{encode, push_number, Record};
use super::{equalities, Random};
use crate::model::beam::Beam;
use crate::model::schedule::Refusal;

/// h0 and l0 of a beam.
fn depth_and_span(record: &Record) -> (u64, u64) {
    let [h, cover, span] = [H, AS, SPAN].map(|field| u64::from(record.fields[field]));
    (h - cover, span)
}

/// Distances at and next to 1.5·h0 and 3·h0.
fn near_limits(h0: u64) -> Vec<u64> {
    [3 * h0 / 2, 3 * h0].into_iter().flat_map(around).collect()
}

/// A distance on the span: at its ends, below, at, between and above the limits of the shear span ratio.
fn random_distance(random: &Random, h0: u64, span: u64) -> u64 {
    let distance = match random.below(8) {
        0 => 0,
        1 => random.within(0, 3 * h0 / 2),
        2 | 3 => random.within(3 * h0 / 2, 3 * h0),
        4 => random.within(3 * h0, span),
        5 => random.pick(&near_limits(h0)),
        6 => span,
        _ => random.within(0, span),
    };
    distance.min(span)
}

/// Distances that are refused, by 8 or by 7.
fn refused_distance(random: &Random, span: u64) -> u64 {
    random.pick(&[span + 1, span + 1, random.within(span + 1, 12_001), 12_001])
}

/// A point-loaded beam that most often passes the questions. Its V is the part of its shear capacity
/// that it was under uniform load.
pub fn random_point_loaded(random: &Random) -> Record {
    let uniform = random_beam(random);
    let (h0, span) = depth_and_span(&uniform);
    if random.one_in(30) {
        return uniform.point_loaded(refused_distance(random, span));
    }
    let record = uniform.point_loaded(random_distance(random, h0, span));
    let (Some(before), Some(after)) = (as_beam(&uniform), as_beam(&record)) else {
        return record;
    };
    record.with(SHEAR, before.shear * after.shear_capacity() / before.shear_capacity())
}

/// Distances on the span at which the shear span ratio turns, next to these, between and beyond; the span's ends.
fn turning_distances(record: &Record) -> Vec<u64> {
    let (h0, span) = depth_and_span(record);
    let mut distances = near_limits(h0);
    distances.extend([0, 1, h0, 2 * h0, 4 * h0, span - 1, span]);
    distances.retain(|distance| *distance <= span);
    distances
}

/// The point-loaded beam with V at its shear capacity and next to it, and as it is.
fn hugging_shear(record: &Record) -> Vec<Record> {
    let mut records = vec![record.clone()];
    if let Some(beam) = as_beam(record) {
        let shears = around(beam.shear_capacity());
        records.extend(shears.map(|shear| record.with(SHEAR, shear)));
    }
    records
}

/// The beam with a point load at each of its turning distances, with V around its shear capacity.
pub fn turning(record: &Record) -> Vec<Record> {
    let loaded =
        turning_distances(record).into_iter().map(|distance| record.point_loaded(distance));
    loaded.flat_map(|record| hugging_shear(&record)).collect()
}

/// The beam with a point load at its support and at the other end of its span.
pub fn both_ends(record: &Record) -> [Record; 2] {
    let (_, span) = depth_and_span(record);
    [0, span].map(|distance| record.point_loaded(distance))
}

/// Document 01's beam 1.
pub fn first_beam() -> Record {
    let head = [250, 500, 250, 0, 40, 0, 30, 1];
    let tail = [8, 2, 200, 1, 30, 6000, 150_000, 90_000, 120_000, 1, 0];
    Record::beam(1, head, &[(20, 4)], &[], tail)
}

/// Beams with h0 even and odd, with the span above and below the limits of the shear span ratio, with and
/// without flange and compression bars.
pub fn examples() -> Vec<Record> {
    let wide = [12, 4, 100, 2, 25, 12_000, 100_000, 60_000, 50_000, 2, 1];
    let short = |span| [10, 3, 150, 2, 30, span, 200_000, 100_000, 90_000, 3, 0];
    let odd = [300, 501, 600, 120, 40, 35, 45, 2];
    let deep = [200, 2000, 200, 0, 50, 0, 25, 1];
    let groups = [(20, 4), (16, 2)];
    vec![
        first_beam(),
        Record::beam(1, odd, &[(25, 4)], &[(14, 2)], wide),
        Record::beam(1, deep, &groups, &[], short(1000)),
        Record::beam(1, deep, &groups, &[], short(4000)),
        Record::beam(1, deep, &groups, &[], short(12_000)),
    ]
}

/// The beam with V next to its concrete part, to 0.7·ft·b·h0 and to its shear capacity.
fn shears(record: &Record, beam: &Beam) -> Vec<Record> {
    let edges = [beam.concrete_part(), beam.concrete_shear() / 1000, beam.shear_capacity()];
    edges.into_iter().flat_map(around).map(|shear| record.with(SHEAR, shear)).collect()
}

/// Beams of every row of table 5.5.6 at its limits and past them, with few links and with many. Their
/// concrete part is below 0.7·ft·b·h0, on which the table turns.
pub fn link_table() -> Vec<Record> {
    let mut records = Vec::new();
    for h in [300, 500, 800, 1000] {
        for (link, spacing) in [6, 12].into_iter().flat_map(|link| SPACINGS.map(|s| (link, s))) {
            let head = [250, h, 250, 0, 40, 0, 30, 1];
            let tail = [link, 2, spacing, 1, 30, 6000, 1, 1, 0, 1, 0];
            let uniform = Record::beam(1, head, &[(20, 3)], &[], tail);
            let (h0, span) = depth_and_span(&uniform);
            for distance in [8 * h0 / 5, span] {
                let record = uniform.point_loaded(distance);
                let beam = as_beam(&record).expect("an accepted beam");
                records.extend(shears(&record, &beam));
            }
        }
    }
    records
}

/// The limits of table 5.5.6, and one past each.
const SPACINGS: [u32; 11] = [150, 151, 200, 201, 250, 251, 300, 301, 350, 351, 400];

/// Beams whose concrete part is whole at λ = 2, there and next to it, with V around the shear capacity.
fn whole_parts() -> Vec<Record> {
    let mut records = Vec::new();
    for (b, h0) in [(240, 500), (300, 400), (200, 600), (400, 900)] {
        for grade in GRADES {
            let head = [b, h0 + 40, b, 0, 40, 0, grade, 1];
            let tail = [8, 2, 100, 2, 30, 6000, 1, 1, 0, 1, 0];
            let beam = Record::beam(1, head, &[(25, 4)], &[], tail);
            let loaded = around(2 * u64::from(h0)).map(|distance| beam.point_loaded(distance));
            records.extend(loaded.iter().flat_map(hugging_shear));
        }
    }
    records
}

/// Every seventh beam at the exact edge of a check, with its point load at one distance after the other.
pub fn of_equalities() -> Vec<Record> {
    let beams = equalities::equalities().into_iter().filter(Record::is_beam).step_by(7);
    let loaded = beams.enumerate().map(|(place, record)| {
        let distances = turning_distances(&record);
        record.point_loaded(distances[place % distances.len()])
    });
    loaded.collect()
}

/// All that are made neither at random nor of other beams.
pub fn directed() -> Vec<Record> {
    let mut records: Vec<Record> = examples().iter().flat_map(turning).collect();
    records.extend(link_table());
    records.extend(whole_parts());
    let long = examples()[1].clone();
    records.extend(around(12_000).map(|distance| long.point_loaded(distance)));
    records
}

/// Beams with the load at the support and at the other end of the span, which is 12000 in some.
pub fn at_edges() -> Vec<Record> {
    examples().iter().flat_map(both_ends).collect()
}

/// Beams with a refused distance, and the question: 7 from 12001, 8 above the span.
pub fn refused() -> Vec<(Record, u32)> {
    let mut records = Vec::new();
    for record in examples() {
        let (_, span) = depth_and_span(&record);
        let beyond = [span + 1, span + 1000, 11_999, 12_000];
        let beyond = beyond.into_iter().filter(|distance| (span + 1..=12_000).contains(distance));
        records.extend(beyond.map(|distance| (record.point_loaded(distance), 8)));
        let outside = [12_001, 12_128, 16_384, 65_536, 1 << 31, u64::from(u32::MAX)];
        records.extend(outside.map(|distance| (record.point_loaded(distance), 7)));
    }
    records
}

/// Files that are refused in a, or for what stands where a beam has its a.
pub fn refused_files() -> Vec<(Vec<u8>, Refusal)> {
    let uniform = first_beam();
    let bytes = encode(&[uniform.point_loaded(6000)]);
    let before = &bytes[..bytes.len() - 2];
    let ending =
        |last: &[u8], question, member| ([before, last].concat(), Refusal { question, member });
    let mut files = vec![
        ending(&[], 2, 1),
        ending(&[0xf0], 2, 1),
        ending(&[0xf0, 0xae, 0x80, 0x80], 2, 1),
        ending(&[0xf0, 0xae, 0], 3, 1),
        ending(&[0x80, 0], 3, 1),
        ending(&[0x80, 0x80, 0x80, 0x80, 0x80], 3, 1),
        ending(&[0xff, 0xff, 0xff, 0xff, 0x10], 3, 1),
        ending(&[0xff, 0xff, 0xff, 0xff, 0x0f], 7, 1),
        ending(&[0xe1, 0x5d], 7, 1),
        ending(&[0xf1, 0x2e], 8, 1),
        ending(&[0xf0, 0x2e, 0], 11, 0),
    ];
    let mut longer = encode(std::slice::from_ref(&uniform));
    push_number(&mut longer, 6000);
    files.push((longer, Refusal { question: 11, member: 0 }));
    let mut unknown = bytes.clone();
    unknown[2] = 5;
    files.push((unknown, Refusal { question: 6, member: 1 }));
    files
}
