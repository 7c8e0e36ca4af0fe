//! Generators of schedules, built members, and lists of groups and of members.

pub mod base;
pub mod beams;
pub mod columns;
pub mod damage;
pub mod edges;
pub mod equalities;
pub mod flaws;
pub mod grades;
pub mod hunts;
pub mod lists;
pub mod meshes;
pub mod moments;
pub mod points;
pub mod random;
pub mod record;
pub mod stored;
pub mod vectors;
pub mod webs;
pub mod words;
pub mod written;

pub use beams::{hugging_beams, random_beam};
pub use columns::{hugging_columns, random_column};
pub use meshes::{hugging_meshes, random_mesh};
pub use points::random_point_loaded;
pub use random::Random;
pub use record::{decode, decode_first, encode, push_number, Record};

/// A likely accepted member of any kind.
pub fn random_member(random: &Random) -> Record {
    if random.one_in(4) {
        random_point_loaded(random)
    } else {
        base::random_member(random)
    }
}

/// A member and its neighbours, with loads and lengths at, below and above the figures.
pub fn hugging_members(random: &Random) -> Vec<Record> {
    if random.one_in(4) {
        hugging_beams(&random_point_loaded(random))
    } else {
        base::hugging_members(random)
    }
}

/// Gives records rising marks, up to the largest now and then.
pub fn renumber(random: &Random, records: &mut [Record]) {
    let step = (999_999 / (records.len() as u64 + 1)).max(1);
    let step = if random.one_in(2) { step } else { 1 + step / 400 };
    let mut mark = 0;
    for record in records.iter_mut() {
        mark += 1 + random.below(step) as u32;
        record.mark = mark;
    }
    if random.one_in(10) {
        if let Some(last) = records.last_mut() {
            last.mark = 999_999;
        }
    }
}

/// An accepted member of any kind.
pub fn accepted(random: &Random) -> Record {
    loop {
        let record = random_member(random);
        if record.read().is_some() {
            return record;
        }
    }
}

/// Accepted members with rising marks.
pub fn accepted_list(random: &Random, count: usize) -> Vec<Record> {
    let mut records: Vec<Record> = (0..count).map(|_| accepted(random)).collect();
    renumber(random, &mut records);
    records
}

/// Marks that are equal or fall at one place.
pub fn without_rise(records: &mut [Record], random: &Random) {
    if records.len() > 1 {
        let place = random.within(1, records.len() as u64 - 1) as usize;
        records[place].mark = records[place - 1].mark - random.below(2) as u32;
    }
}
