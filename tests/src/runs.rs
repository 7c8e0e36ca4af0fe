//! What a comparison is run on.

pub mod grades;
pub mod moments;
pub mod points;
pub mod webs;
pub mod written;

use crate::branches::is_family_2_at_c25;
use crate::comparison::{Checker, Comparison};
use crate::make::words::of_record;
use crate::make::{
    self, beams, columns, damage, edges, encode, equalities, hunts, lists, meshes, Random, Record,
};
use crate::model::built::{self, Group};
use crate::model::held;
use crate::model::schedule::{self, Refusal};

type Outcome = Result<(), String>;

/// Runs everything; `multiplier` scales the random parts.
pub fn all<C: Checker>(
    comparison: &mut Comparison<C>,
    random: &Random,
    multiplier: u64,
) -> Outcome {
    random_schedules(comparison, random, 6000 * multiplier)?;
    hugging_schedules(comparison, random, 4000 * multiplier)?;
    equality_schedules(comparison, random)?;
    hunted_beams(comparison, random, 20 * multiplier as usize)?;
    points::point_loads(comparison, random, 1000 * multiplier)?;
    every_mesh(comparison, random)?;
    every_slenderness(comparison, random)?;
    edge_members(comparison, random, 3 * multiplier)?;
    damaged_schedules(comparison, random, 8 * multiplier)?;
    long_schedules(comparison, random, 10 * multiplier)?;
    built_members(comparison, random, 6000 * multiplier)?;
    group_lists(comparison, random, 6000 * multiplier)?;
    written::edge_lists(comparison, random, multiplier)?;
    written::lists(comparison, random, 6000 * multiplier)?;
    every_cover(comparison, random)?;
    moments::moments(comparison, random, 20 * multiplier)?;
    webs::webs(comparison, random, 1000 * multiplier)?;
    grades::grades(comparison, random, 1000 * multiplier)
}

/// A short run that still reaches every case.
pub fn quick<C: Checker>(comparison: &mut Comparison<C>, random: &Random) -> Outcome {
    random_schedules(comparison, random, 100)?;
    hugging_schedules(comparison, random, 500)?;
    equality_schedules(comparison, random)?;
    hunted_beams(comparison, random, 1)?;
    points::point_loads(comparison, random, 20)?;
    every_mesh(comparison, random)?;
    every_slenderness(comparison, random)?;
    built_members(comparison, random, 100)?;
    group_lists(comparison, random, 100)?;
    written::lists(comparison, random, 100)?;
    every_cover(comparison, random)?;
    moments::moments(comparison, random, 2)?;
    webs::webs(comparison, random, 20)?;
    grades::grades(comparison, random, 20)
}

/// Schedules of few members, accepted or not.
fn random_schedules<C: Checker>(
    comparison: &mut Comparison<C>,
    random: &Random,
    count: u64,
) -> Outcome {
    for _ in 0..count {
        let length = random.below(9);
        let mut records: Vec<Record> = (0..length).map(|_| make::random_member(random)).collect();
        make::renumber(random, &mut records);
        if random.one_in(20) {
            make::without_rise(&mut records, random);
        }
        comparison.records(&records)?;
    }
    Ok(())
}

/// Sends the accepted records together and each refused one alone.
fn together<C: Checker>(
    comparison: &mut Comparison<C>,
    random: &Random,
    records: Vec<Record>,
) -> Outcome {
    let (mut accepted, refused): (Vec<Record>, Vec<Record>) =
        records.into_iter().partition(|record| record.read().is_some());
    for chunk in accepted.chunks_mut(50) {
        make::renumber(random, chunk);
        comparison.records(chunk)?;
    }
    for record in refused {
        comparison.records(&[record])?;
    }
    Ok(())
}

/// Members alone as built ones, together in schedules.
fn members<C: Checker>(
    comparison: &mut Comparison<C>,
    random: &Random,
    records: Vec<Record>,
) -> Outcome {
    for record in &records {
        comparison.built(record)?;
    }
    together(comparison, random, records)
}

/// A file that is to be refused so.
fn refused<C: Checker>(comparison: &mut Comparison<C>, file: &[u8], expected: Refusal) -> Outcome {
    comparison.schedule(file)?;
    match schedule::read(file) {
        Err(refusal) if refusal == expected => Ok(()),
        answer => Err(format!("file {file:?}\nmodel: {answer:?}, not {expected:?}")),
    }
}

/// A member that every entry is to refuse by this question, naming member 1, or to accept, where it is 0.
fn answered<C: Checker>(
    comparison: &mut Comparison<C>,
    random: &Random,
    record: &Record,
    expected: u32,
) -> Outcome {
    let words = of_record(record, random);
    let file = encode(std::slice::from_ref(record));
    comparison.built(record)?;
    comparison.words(&words)?;
    comparison.schedule(&file)?;
    let answers = [
        schedule::read(&file).err(),
        built::read(&record.built(), &record.first, &record.second).err(),
        held::read(&words, words.len()).err(),
    ];
    let expected = (expected > 0).then_some(Refusal { question: expected, member: 1 });
    if answers.iter().all(|answer| *answer == expected) {
        Ok(())
    } else {
        Err(format!("{record:?}\nmodel: {answers:?}, not {expected:?}"))
    }
}

/// Members and their neighbours at every figure.
fn hugging_schedules<C: Checker>(
    comparison: &mut Comparison<C>,
    random: &Random,
    count: u64,
) -> Outcome {
    for _ in 0..count {
        let records = make::hugging_members(random);
        for record in records.iter().take(3) {
            comparison.built(record)?;
        }
        together(comparison, random, records)?;
    }
    Ok(())
}

fn equality_schedules<C: Checker>(comparison: &mut Comparison<C>, random: &Random) -> Outcome {
    members(comparison, random, equalities::equalities())
}

/// Beams whose deflection turns on one rounding, under uniform load and under a point load.
fn hunted_beams<C: Checker>(
    comparison: &mut Comparison<C>,
    random: &Random,
    count: usize,
) -> Outcome {
    let mut records = hunts::hunts(random, count);
    let loaded: Vec<Record> = records.iter().flat_map(make::points::both_ends).collect();
    records.extend(loaded);
    together(comparison, random, records)
}

/// Each mesh there is, with given lengths at the required ones; those of family 2 at C25 also with lengths around them.
fn every_mesh<C: Checker>(comparison: &mut Comparison<C>, random: &Random) -> Outcome {
    let mut records = meshes::every_mesh();
    let wanted = |record: &&Record| meshes::as_mesh(record).is_some_and(|m| is_family_2_at_c25(&m));
    let near: Vec<Record> =
        records.iter().filter(wanted).flat_map(meshes::hugging_meshes).collect();
    for record in &near {
        comparison.built(record)?;
    }
    records.extend(near);
    for chunk in records.chunks_mut(500) {
        make::renumber(random, chunk);
        comparison.records(chunk)?;
    }
    Ok(())
}

/// One column at lengths throughout the table of φ and past both its ends.
fn every_slenderness<C: Checker>(comparison: &mut Comparison<C>, random: &Random) -> Outcome {
    let mut records = columns::every_slenderness();
    for chunk in records.chunks_mut(500) {
        make::renumber(random, chunk);
        comparison.records(chunk)?;
    }
    Ok(())
}

/// One beam at each cover: below 20 mm, above 65, and all between, where it moves the width (4.4.2; document 02, wish 4).
fn every_cover<C: Checker>(comparison: &mut Comparison<C>, random: &Random) -> Outcome {
    members(comparison, random, beams::every_cover())
}

/// The first accepted member that is made and wanted.
fn accepted(make: impl Fn() -> Record, wanted: impl Fn(&Record) -> bool) -> Record {
    loop {
        let record = make();
        if wanted(&record) && record.read().is_some() {
            return record;
        }
    }
}

/// An accepted member of each kind, beams of kind 1 with and without compression bars.
fn bases(random: &Random) -> Vec<Record> {
    let beam = || beams::random_beam(random);
    vec![
        accepted(beam, |record| record.second.is_empty()),
        accepted(beam, |record| !record.second.is_empty()),
        accepted(|| make::random_point_loaded(random), |_| true),
        accepted(|| columns::random_column(random), |_| true),
        accepted(|| meshes::random_mesh(random), |_| true),
    ]
}

/// A member with every field at and outside its range's ends.
fn edges_of(base: &Record) -> Vec<Record> {
    let mut records = edges::field_edges(base);
    records.extend(edges::group_edges(base));
    records.extend(edges::question_edges(base));
    records
}

/// A record between two others, with rising marks, save that its own stays where it is out of range.
fn between(random: &Random, record: Record, last: &Record) -> [Record; 3] {
    let mark = record.mark;
    let mut three = [meshes::random_mesh(random), record, last.clone()];
    make::renumber(random, &mut three);
    if !(1..=999_999).contains(&mark) {
        three[1].mark = mark;
    }
    three
}

/// Every field at and outside its range's ends, alone, inside a schedule, and built.
fn edge_members<C: Checker>(
    comparison: &mut Comparison<C>,
    random: &Random,
    count: u64,
) -> Outcome {
    for _ in 0..count {
        for base in bases(random) {
            for record in edges_of(&base) {
                comparison.built(&record)?;
                comparison.records(std::slice::from_ref(&record))?;
                comparison.records(&between(random, record, &base))?;
            }
        }
    }
    Ok(())
}

/// Damage to small accepted schedules.
fn damaged_schedules<C: Checker>(
    comparison: &mut Comparison<C>,
    random: &Random,
    count: u64,
) -> Outcome {
    for _ in 0..count {
        let mut records = bases(random);
        let first = random.below(records.len() as u64) as usize;
        records.rotate_left(first);
        records.truncate(1 + random.below(4) as usize);
        make::renumber(random, &mut records);
        let bytes = encode(&records);
        let mut found = Ok(());
        let mut put = |bytes: &[u8]| {
            if found.is_ok() {
                found = comparison.schedule(bytes);
            }
        };
        damage::by_byte(&bytes, random, &mut put);
        damage::by_number(&bytes, random, &mut put);
        damage::sizes(&bytes, random, &mut put);
        found?;
    }
    Ok(())
}

/// Schedules of up to 500 members, whole, with a byte after them, and cut.
fn long_schedules<C: Checker>(
    comparison: &mut Comparison<C>,
    random: &Random,
    count: u64,
) -> Outcome {
    for _ in 0..count {
        let length = random.pick(&[100, 499, 500, 500, 501]);
        let mut bytes = encode(&make::accepted_list(random, length));
        comparison.schedule(&bytes)?;
        comparison.schedule(&bytes[..bytes.len() - 1])?;
        comparison.schedule(&bytes[..random.below(bytes.len() as u64) as usize])?;
        bytes.push(random.next() as u8);
        comparison.schedule(&bytes)?;
    }
    Ok(())
}

fn junk_group(random: &Random) -> Group {
    Group { diameter: random.below(60) as u32, bars: random.below(25) as u32 }
}

/// Junk where a built member is not read, and now and then where it is.
fn littered(record: &Record, random: &Random) -> Record {
    let mut record = record.clone();
    for field in record.field_count()..record.fields.len() {
        record.fields[field] = random.next() as u32 >> random.below(32);
    }
    for _ in 0..random.below(4) {
        record.first.push(junk_group(random));
        record.second.push(junk_group(random));
    }
    match random.below(12) {
        0 => record.mark = random.pick(&[0, 1_000_000, u32::MAX]),
        1 => record.kind = random.pick(&[0, 1, 4, 5, 6, u32::MAX]),
        2 => drop(record.first.pop()),
        3 => drop(record.second.pop()),
        4 => record.first.clear(),
        5 => {
            let field = random.below(record.field_count() as u64) as usize;
            record.fields[field] = random.next() as u32 >> random.below(32);
        }
        _ => record.mark = 1 + random.below(999_999) as u32,
    }
    record
}

fn built_members<C: Checker>(
    comparison: &mut Comparison<C>,
    random: &Random,
    count: u64,
) -> Outcome {
    for _ in 0..count {
        let record = make::random_member(random);
        comparison.built(&record)?;
        comparison.built(&littered(&record, random))?;
    }
    Ok(())
}

fn group_lists<C: Checker>(comparison: &mut Comparison<C>, random: &Random, count: u64) -> Outcome {
    for (groups, named) in lists::list_edges() {
        comparison.list(&groups, named)?;
    }
    for _ in 0..count {
        let (groups, named) = lists::random_list(random);
        comparison.list(&groups, named)?;
    }
    Ok(())
}
