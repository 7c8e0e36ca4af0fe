//! Vectors for another test program: some 300 members of the kinds 1 to 3 that reach every case, point-loaded beams that
//! are chosen by theirs, the beams of 6.3.1v, and members of the grades from C50 on, read and written; damaged schedules,
//! refused lists and grades, and two vectors that are wrong on purpose.

mod lists;

use std::collections::{BTreeMap, BTreeSet};

use super::base::{hugging_members, random_member};
use super::edges::question_edges;
use super::written::number;
use super::{
    damage, encode, equalities, grades, hunts, moments, points, random_point_loaded, renumber,
    webs, Random, Record,
};
use crate::branches::{point_load_cases, required, Case, Tally};
use crate::model::report::report;
use crate::model::schedule::Refusal;
use crate::model::writing::write_schedule;

/// Members of the kinds 1 to 3, point-loaded beams, and how many schedules have the same refusal.
pub const MEMBERS: usize = 300;
const POINT_LOADED: usize = 45;
const ALIKE: usize = 8;

/// The bytes that the program `vectors` reads.
const ROOM: usize = 320_000;

/// The cases that a record reaches, if it is accepted.
fn cases(record: &Record) -> Option<Vec<Case>> {
    let member = record.read()?;
    let mut tally = Tally::default();
    tally.note(&member, &member.check());
    Some(tally.iter().map(|(case, _)| *case).collect())
}

/// Keeps the records that reach a case which is still open.
fn keep(records: Vec<Record>, open: &mut BTreeSet<Case>, kept: &mut Vec<Record>) {
    for record in records {
        let Some(cases) = cases(&record) else {
            continue;
        };
        if cases.iter().filter(|case| open.remove(case)).count() > 0 {
            kept.push(record);
        }
    }
}

/// The members of the kinds 1 to 3: first those that reach every case, then random ones.
pub fn members(random: &Random) -> Vec<Record> {
    let mut open: BTreeSet<Case> = required().into_iter().collect();
    let mut kept = Vec::new();
    keep(equalities::equalities(), &mut open, &mut kept);
    keep(hunts::hunts(random, 1), &mut open, &mut kept);
    for _ in 0..20_000 {
        keep(hugging_members(random), &mut open, &mut kept);
        if open.is_empty() {
            break;
        }
    }
    assert!(open.is_empty(), "cases not reached: {open:?}");
    while kept.len() < MEMBERS {
        let record = random_member(random);
        if record.read().is_some() {
            kept.push(record);
        }
    }
    renumber(random, &mut kept);
    kept
}

/// Keeps, one after the other, the record that reaches the most cases which are still open.
fn keep_best(records: Vec<Record>, open: &mut BTreeSet<Case>, kept: &mut Vec<Record>) {
    let found = records.into_iter().filter_map(|record| Some((cases(&record)?, record)));
    let found: Vec<(Vec<Case>, Record)> = found.collect();
    loop {
        let reached = |cases: &[Case]| cases.iter().filter(|case| open.contains(case)).count();
        let best = found.iter().max_by_key(|(cases, _)| reached(cases));
        let Some((cases, record)) = best.filter(|(cases, _)| reached(cases) > 0) else {
            return;
        };
        open.retain(|case| !cases.contains(case));
        kept.push(record.clone());
    }
}

/// Point-loaded beams: those that reach every case by which they are chosen, at the edges of what kind
/// 4 adds and as these members with a point load; then random ones.
fn point_loaded(members: &[Record], random: &Random) -> Vec<Record> {
    let mut open: BTreeSet<Case> = point_load_cases().into_iter().collect();
    let mut kept = Vec::new();
    let beams = members.iter().filter(|record| record.is_beam());
    let mut records = points::directed();
    records.extend(beams.flat_map(points::both_ends));
    keep_best(records, &mut open, &mut kept);
    assert!(open.is_empty(), "cases not reached: {open:?}");
    while kept.len() < POINT_LOADED {
        let record = random_point_loaded(random);
        if record.read().is_some() {
            kept.push(record);
        }
    }
    kept
}

/// All members, with rising marks.
fn all_members(random: &Random) -> Vec<Record> {
    let mut all = members(random);
    all.extend(point_loaded(&all, random));
    renumber(random, &mut all);
    all
}

/// The text in the buffer, or the refusal.
fn shown(answer: Result<usize, Refusal>, mut buffer: Vec<u8>) -> Vec<u8> {
    match answer {
        Ok(length) => buffer.truncate(length),
        Err(no) => buffer = format!("refused {} member {}\n", no.question, no.member).into_bytes(),
    }
    buffer
}

/// What the report program prints for a schedule's bytes.
pub fn printed(schedule: &[u8]) -> Vec<u8> {
    let mut text = vec![0; 64_000];
    shown(report(schedule, &mut text), text)
}

/// The file of the words in these bytes, or the refusal. Bytes left over are no word.
fn written(given: &[u8]) -> Vec<u8> {
    let words: Vec<u32> = given
        .chunks_exact(4)
        .map(|word| u32::from_le_bytes(word.try_into().expect("four bytes")))
        .collect();
    let mut file = vec![0; 60_000];
    shown(write_schedule(&words, words.len(), &mut file), file)
}

/// Refused schedules: of three members with a number or a byte damaged, and of one member past a question's edge.
fn refused(members: &[Record], random: &Random) -> Vec<Vec<u8>> {
    let mut schedules: Vec<Vec<u8>> = Vec::new();
    let mut seen: BTreeMap<Vec<u8>, usize> = BTreeMap::new();
    let mut put = |bytes: &[u8]| {
        let text = printed(bytes);
        let times = seen.entry(text.clone()).or_default();
        if text.starts_with(b"refused") && *times < ALIKE && bytes.len() < 1000 {
            *times += 1;
            schedules.push(bytes.to_vec());
        }
    };
    for few in members.chunks(3) {
        damage::by_number(&encode(few), random, &mut put);
        damage::by_byte(&encode(few), random, &mut put);
        for edge in few.iter().flat_map(question_edges) {
            put(&encode(&[edge]));
        }
    }
    schedules
}

/// Each member alone, and all of them.
fn alone_and_together(members: &[Record]) -> Vec<Vec<u8>> {
    let alone = members.iter().map(|one| encode(std::slice::from_ref(one)));
    alone.chain([encode(members)]).collect()
}

/// Each member alone, all of them, none, and refused ones, also for what kind 4 and question 14 add.
fn schedules(members: &[Record], random: &Random) -> Vec<Vec<u8>> {
    let mut schedules = alone_and_together(members);
    schedules.push(vec![0]);
    schedules.extend(refused(members, random));
    let files = [points::refused_files(), moments::refused_files()].concat();
    schedules.extend(files.into_iter().map(|(file, _)| file));
    schedules
}

/// The beams around 6.3.1v's limit, and the members of the grades from C50 on, each with marks from 1. They stand apart
/// and change none of the other members.
fn apart() -> [Vec<Record>; 2] {
    let webs: Vec<Record> = webs::examples().into_iter().map(|(record, _)| record).collect();
    let mut lists = [webs, grades::examples()];
    lists.iter_mut().for_each(|records| number(records));
    lists
}

/// A member of each kind alone, with some of the grades that are refused.
fn lists_of_refused_grades() -> impl Iterator<Item = Vec<Record>> {
    let wanted = |record: &Record| [0, 51, 56, 85, u32::MAX].contains(&grades::grade(record));
    grades::refused().into_iter().filter(wanted).map(|record| vec![record])
}

/// A schedule and what is printed for it, or words and what is written for them.
#[derive(Clone)]
struct Vector {
    form: u8,
    given: Vec<u8>,
    text: Vec<u8>,
}

impl Vector {
    fn of_schedule(given: Vec<u8>) -> Self {
        Self { form: 0, text: printed(&given), given }
    }

    fn of_words(given: Vec<u8>) -> Self {
        Self { form: 1, text: written(&given), given }
    }

    /// With the last byte but one changed: in a report the last before the line's end.
    fn wrong(mut self) -> Self {
        let place = self.text.len() - 2;
        self.text[place] ^= 1;
        self
    }

    /// Appends the form and both parts, each after its length in two bytes, low byte first.
    fn put(&self, row: &mut Vec<u8>) {
        row.push(self.form);
        for part in [&self.given, &self.text] {
            let length = u16::try_from(part.len()).expect("a part of at most 65,535 bytes");
            row.extend(length.to_le_bytes());
            row.extend(part);
        }
    }
}

/// A row of vectors and how many there are. The last two texts are wrong on purpose: whoever compares must count two unequal.
pub fn vectors(random: &Random) -> (usize, Vec<u8>) {
    let (members, apart) = (all_members(random), apart());
    let mut schedules = schedules(&members, random);
    schedules.extend(apart.iter().flat_map(|records| alone_and_together(records)));
    schedules.extend(grades::refused().into_iter().map(|record| encode(&[record])));
    let mut vectors: Vec<Vector> = schedules.into_iter().map(Vector::of_schedule).collect();
    let first_list = vectors.len();
    vectors.extend(lists::lists(&members, random).into_iter().map(Vector::of_words));
    for records in apart.into_iter().chain(lists_of_refused_grades()) {
        vectors.push(Vector::of_words(lists::together(&records, random)));
    }
    vectors.push(vectors[first_list].clone().wrong());
    vectors.push(vectors[0].clone().wrong());
    let mut row = Vec::new();
    for vector in &vectors {
        vector.put(&mut row);
    }
    assert!(row.len() <= ROOM, "{} bytes", row.len());
    (vectors.len(), row)
}
