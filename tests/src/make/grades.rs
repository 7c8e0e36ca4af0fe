//! Members of every grade, at the edges of what turns on it (document 02, wish 7).

use super::beams::{around, as_beam, random_beam, total, GRADES};
use super::columns::as_column;
use super::edges::HUGE;
use super::equalities::{divided, factors, plain_beam, single_groups};
use super::meshes::hugging_meshes;
use super::moments::{mesh, with_moments};
use super::points::first_beam;
use super::record::place::beam::*;
use super::record::place::{column, mesh as mesh_place};
use super::webs::{both_kinds, web};
use super::{Random, Record};
use crate::model::built::Group;
use crate::model::parameters::Parameters;
use crate::model::tables;

/// Grades that question 7 refuses: next to those that it takes, between and beyond them, and some whose low bits it
/// would take.
pub const REFUSED: [u32; 21] =
    [0, 1, 15, 19, 21, 24, 26, 49, 51, 54, 56, 79, 81, 84, 85, 90, 100, 336, 65_591, 131_152, HUGE];

/// Document 01's column 2.
fn first_column() -> Record {
    Record::column(2, [400, 400, 30, 1], &[(20, 8)], [8, 250, 4000, 2_500_000])
}

/// Document 01's members, and its beam under a point load.
pub fn each_kind() -> [Record; 4] {
    [first_beam(), first_column(), mesh(3), first_beam().point_loaded(1000)]
}

/// Where a kind has its grade.
pub fn place_of_grade(kind: u32) -> usize {
    match kind {
        2 => column::CONCRETE,
        3 => mesh_place::CONCRETE,
        _ => CONCRETE,
    }
}

/// A member's grade.
pub fn grade(record: &Record) -> u32 {
    record.fields[place_of_grade(record.kind)]
}

/// The member with this grade.
pub fn with_grade(record: &Record, grade: u32) -> Record {
    record.with(place_of_grade(record.kind), u64::from(grade))
}

/// A member of each kind with each of these grades.
fn of_grades(grades: &[u32]) -> Vec<Record> {
    let each = |record: &Record| grades.iter().map(|grade| with_grade(record, *grade)).collect();
    each_kind().iter().flat_map::<Vec<Record>, _>(each).collect()
}

/// A member of each kind and grade.
pub fn accepted() -> Vec<Record> {
    of_grades(&GRADES)
}

/// A member of each kind with each grade that is refused.
pub fn refused() -> Vec<Record> {
    of_grades(&REFUSED)
}

/// Whether a beam is accepted and 4.2.2-3 holds.
fn fits(record: &Record) -> bool {
    as_beam(record).is_some_and(|beam| beam.is_within_depth_limit())
}

/// The beam with compression bars at this distance.
fn doubled(record: &Record, distance: u64, bars: Group) -> Record {
    let mut record = record.with(A2, distance);
    record.second = vec![bars];
    record.count_groups();
    record
}

/// The beam, and the same with two thin compression bars.
fn single_and_doubled(record: &Record) -> [Record; 2] {
    [record.clone(), doubled(record, 40, Group { diameter: 6, bars: 2 })]
}

/// Diameters of which the most bars are made, one after the other.
const THICK_TO_THIN: [u32; 4] = [50, 25, 12, 6];

/// The beam with so many bars of these diameters.
fn with_bars(record: &Record, counts: [u32; 4]) -> Record {
    let mut record = record.clone();
    let groups = THICK_TO_THIN.into_iter().zip(counts).filter(|(_, bars)| *bars > 0);
    record.first = groups.map(|(diameter, bars)| Group { diameter, bars }).collect();
    record.count_groups();
    record
}

/// The beam with the most bars that fit, and with one more of the thinnest.
fn most_bars(record: &Record) -> [Record; 2] {
    let one_more = |counts: [u32; 4], place: usize| {
        let mut more = counts;
        more[place] += 1;
        more
    };
    let mut counts = [0, 0, 0, 1];
    for place in 0..4 {
        while fits(&with_bars(record, one_more(counts, place))) {
            counts = one_more(counts, place);
        }
    }
    [counts, one_more(counts, 3)].map(|counts| with_bars(record, counts))
}

/// The beam with the most bars of 32 mm that fit, the least height with which they do, and one mm less.
fn least_height(record: &Record) -> [Record; 2] {
    let tall = |bars| Record { first: vec![Group { diameter: 32, bars }], ..record.clone() };
    let bars = (1..=20).rev().find(|bars| fits(&tall(*bars))).expect("a bar that fits");
    let of_height = |h| tall(bars).with(H, h);
    let heights = (160..=2000).rev().take_while(|h| fits(&of_height(*h)));
    let least = heights.last().expect("a height that fits");
    [least, least - 1].map(of_height)
}

/// Beams at the limit of 4.2.2-3, or of question 10 where that comes first, without and with compression bars.
fn around_depth_limit(grade: u32, steel: u32) -> Vec<Record> {
    let bar = [Group { diameter: 32, bars: 1 }];
    let wide = single_and_doubled(&plain_beam(1000, 1040, grade, steel, &bar));
    let tall = single_and_doubled(&plain_beam(200, 2000, grade, steel, &bar));
    let mut records: Vec<Record> = wide.iter().flat_map(most_bars).collect();
    records.extend(tall.iter().flat_map(least_height));
    records
}

/// A beam whose tension bars put the border between 4.2.2 and 4.2.3 above a' = 100: with the largest a' of 4.2.2, and
/// the least of 4.2.3.
fn around_border(grade: u32, steel: u32) -> [Record; 2] {
    let beam = |bars, distance| {
        let tension = [Group { diameter: 28, bars }];
        let record = plain_beam(300, 1040, grade, steel, &tension);
        doubled(&record, distance, Group { diameter: 12, bars: 2 })
    };
    let is_deep = |record: Record| fits(&record) && !as_beam(&record).unwrap().is_shallow();
    let is_crossed = |bars: &u32| is_deep(beam(*bars, 101)) && !is_deep(beam(*bars, 199));
    let bars = (1..=20).find(is_crossed).expect("bars for such a border");
    let last = (101..=199).take_while(|distance| is_deep(beam(bars, *distance))).last();
    let last = last.expect("a distance of 4.2.2");
    [last, last + 1].map(|distance| beam(bars, distance))
}

/// A beam with t = 2·a'·k, if there is one with these tension and compression bars.
fn at_border_with(
    grade: u32,
    steel: u32,
    tension: &[Group],
    compression: &[Group],
) -> Option<Record> {
    let concrete = tables::concrete(u64::from(grade))?;
    let strength = tables::steel(u64::from(steel))?;
    let net = total(tension).checked_sub(total(compression))?;
    let stress = Parameters::of(concrete, strength).stress;
    let product = divided(100 * strength.fy * net, 2 * stress * concrete.fc)?;
    let beam = |(distance, b): (u64, u64)| {
        let record = plain_beam(b, (10 * distance + 200).min(2000), grade, steel, tension);
        doubled(&record, distance, compression[0])
    };
    factors(product, 20..=200, 100..=1000, 181).into_iter().map(beam).find(fits)
}

/// Tension bars for t = 2·a'·k at C80, where a single group does not do.
const TWO_GROUPS: [Group; 2] = [Group { diameter: 16, bars: 10 }, Group { diameter: 10, bars: 1 }];

/// A beam with t = 2·a'·k.
fn at_border(grade: u32, steel: u32) -> Record {
    let mut tension = single_groups().chain([TWO_GROUPS.to_vec()]);
    let found = tension.find_map(|first| {
        single_groups().find_map(|second| at_border_with(grade, steel, &first, &second))
    });
    found.expect("a beam on the border")
}

/// The beam with M at its capacity and one above.
fn around_capacity(record: &Record) -> Vec<Record> {
    let figure = as_beam(record).and_then(|beam| beam.check().figures().first().copied());
    let moments = figure.map_or(vec![], |capacity| vec![capacity, capacity + 1]);
    moments.into_iter().map(|moment| record.with(MOMENT, moment)).collect()
}

/// The beam with V at its shear capacity and one above.
fn around_shear_capacity(record: &Record) -> [Record; 2] {
    let capacity = as_beam(record).expect("an accepted beam").shear_capacity();
    [capacity, capacity + 1].map(|shear| record.with(SHEAR, shear))
}

/// Webs of every range of h0/b with V at the limit of 6.3.1v and at what it would be without βc, and one above each.
fn around_web_limits(grade: u32) -> Vec<Record> {
    let mut records = Vec::new();
    for h0 in [460, 1250, 1960] {
        let record = web(250, h0, grade);
        let beam = as_beam(&record).expect("an accepted beam");
        for (upper, lower) in [beam.web_limit(), beam.unreduced_web_limit()] {
            let shears = [upper / lower, upper / lower + 1];
            records.extend(shears.map(|shear| record.with(SHEAR, shear)));
        }
    }
    records
}

/// Document 01's beam 1 with three bars and lower moments: all its checks hold at every grade and with both steels.
fn light_beam(grade: u32, steel: u32) -> Record {
    let mut record = with_grade(&first_beam(), grade).with(STEEL, u64::from(steel));
    record.first[0].bars = 3;
    with_moments(&record, 60_000, 60_000)
}

/// Beams of kind 1 of this grade and steel.
fn beams(grade: u32, steel: u32) -> Vec<Record> {
    let light = light_beam(grade, steel);
    let border = around_border(grade, steel);
    let mut records = around_depth_limit(grade, steel);
    records.extend(around_capacity(&light));
    records.extend(around_shear_capacity(&light));
    records.extend(border.iter().flat_map(around_capacity));
    records.extend(around_capacity(&at_border(grade, steel)));
    records
}

/// Columns with N at the capacity and one above.
fn columns(grade: u32, steel: u32) -> [Record; 2] {
    let record = with_grade(&first_column(), grade).with(column::STEEL, u64::from(steel));
    let capacity = as_column(&record).expect("an accepted column").axial_capacity();
    [capacity, capacity + 1].map(|load| record.with(column::AXIAL, load))
}

/// Meshes of both families and of every row, with the given lengths around the required ones.
fn meshes(grade: u32) -> Vec<Record> {
    let mut records = Vec::new();
    for row in 0..16 {
        let [family, cross, lapping, thick] = [1, 2, 4, 8].map(|bit| u32::from(row & bit > 0));
        let diameter = if thick > 0 { 16 } else { 10 };
        let fields = [1 + family, grade, diameter, cross, 0, 0, 0, 1 + lapping, 0, 0, 0];
        records.extend(hugging_meshes(&Record::mesh(1, fields)));
    }
    records
}

/// Members of every grade, C80 first, and steel: beams of both kinds, columns and meshes.
pub fn directed() -> Vec<Record> {
    let mut records = Vec::new();
    for (grade, turn) in GRADES.into_iter().rev().zip(0..) {
        let mut of_kind_1: Vec<Record> =
            [1, 2].into_iter().flat_map(|steel| beams(grade, steel)).collect();
        of_kind_1.extend(around_web_limits(grade));
        records.extend(of_kind_1.iter().flat_map(|record| both_kinds(record, turn % 7)));
        records.extend([1, 2].into_iter().flat_map(|steel| columns(grade, steel)));
        records.extend(meshes(grade));
    }
    records
}

/// Of each grade from C50 on: beams around the limit of 4.2.2-3 of both kinds, around the border of 4.2.2 and 4.2.3 and
/// around the limit of 6.3.1v of one; columns around their capacity, and a mesh.
pub fn examples() -> Vec<Record> {
    let mut records = Vec::new();
    for grade in GRADES.into_iter().filter(|grade| *grade >= 50) {
        let bar = [Group { diameter: 32, bars: 1 }];
        let most = most_bars(&plain_beam(1000, 1040, grade, 2, &bar));
        let least = least_height(&plain_beam(200, 2000, grade, 1, &bar));
        let border = around_border(grade, 1).map(|record| record.with(MOMENT, 10_000_000));
        records.extend(most.iter().flat_map(|record| both_kinds(record, 3)));
        records.extend(least.into_iter().filter(|record| as_beam(record).is_some()));
        records.extend(border.map(|record| record.point_loaded(1000)));
        records.extend_from_slice(&around_web_limits(grade)[..2]);
        records.extend(columns(grade, 2));
        records.push(with_grade(&mesh(3), grade));
    }
    records
}

/// A random beam of either kind with h around the least of 4.2.2-3, and with a' around the border of 4.2.2 and 4.2.3.
pub fn random_beams(random: &Random) -> Vec<Record> {
    let drawn = random_beam(random).with(MOMENT, 1).with(MOMENT_QUASI, 1);
    let record = both_kinds(&drawn, random.below(7))[random.below(2) as usize].clone();
    let Some(beam) = as_beam(&record) else {
        return Vec::new();
    };
    let force = 100 * u64::try_from(beam.net_force()).unwrap_or(0);
    let (upper, lower) = beam.parameters().depth;
    let depth = (lower * force).div_ceil(upper * beam.block_force());
    let mut records = around(depth + beam.cover_tension).map(|h| record.with(H, h)).to_vec();
    if beam.compression.groups > 0 {
        let distances = around(force / (2 * beam.block_force()));
        records.extend(distances.map(|distance| record.with(A2, distance)));
    }
    let loaded: Vec<Record> = records.iter().flat_map(around_capacity).collect();
    [records, loaded].concat()
}
