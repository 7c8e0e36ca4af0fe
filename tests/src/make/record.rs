//! A member as loose numbers, valid or not, and its bytes.

use crate::model::built::{Built, Group, FIELDS};
use crate::model::member::Member;
use crate::model::schedule;

/// Places of fields, in the order of a built member.
pub mod place {
    pub mod beam {
        pub const B: usize = 0;
        pub const H: usize = 1;
        pub const BF: usize = 2;
        pub const HF: usize = 3;
        pub const AS: usize = 4;
        pub const A2: usize = 5;
        pub const CONCRETE: usize = 6;
        pub const STEEL: usize = 7;
        pub const TENSION: usize = 8;
        pub const COMPRESSION: usize = 9;
        pub const LINK: usize = 10;
        pub const LEGS: usize = 11;
        pub const SPACING: usize = 12;
        pub const LINK_STEEL: usize = 13;
        pub const COVER: usize = 14;
        pub const SPAN: usize = 15;
        pub const MOMENT: usize = 16;
        pub const MOMENT_QUASI: usize = 17;
        pub const SHEAR: usize = 18;
        pub const ENVIRONMENT: usize = 19;
        pub const STRICT: usize = 20;
        pub const COUNT: usize = 21;
        /// a, of kind 4 only.
        pub const LOAD: usize = 21;
        pub const POINT_COUNT: usize = 22;
    }
    pub mod column {
        pub const B: usize = 0;
        pub const H: usize = 1;
        pub const CONCRETE: usize = 2;
        pub const STEEL: usize = 3;
        pub const GROUPS: usize = 4;
        pub const LINK: usize = 5;
        pub const SPACING: usize = 6;
        pub const LENGTH: usize = 7;
        pub const AXIAL: usize = 8;
        pub const COUNT: usize = 9;
    }
    pub mod mesh {
        pub const FAMILY: usize = 0;
        pub const CONCRETE: usize = 1;
        pub const DIAMETER: usize = 2;
        pub const CROSS: usize = 3;
        pub const PAIRED: usize = 4;
        pub const APART: usize = 5;
        pub const SEISMIC: usize = 6;
        pub const LAP: usize = 7;
        pub const COMPRESSION: usize = 8;
        pub const ANCHORAGE_GIVEN: usize = 9;
        pub const LAP_GIVEN: usize = 10;
        pub const COUNT: usize = 11;
    }
}

#[derive(Clone, Debug)]
pub struct Record {
    pub mark: u32,
    pub kind: u32,
    pub fields: [u32; FIELDS],
    pub first: Vec<Group>,
    pub second: Vec<Group>,
}

fn groups(list: &[(u32, u32)]) -> Vec<Group> {
    list.iter().map(|&(diameter, bars)| Group { diameter, bars }).collect()
}

impl Record {
    fn new(mark: u32, kind: u32, numbers: &[u32]) -> Self {
        let mut fields = [0; FIELDS];
        fields[..numbers.len()].copy_from_slice(numbers);
        Record { mark, kind, fields, first: Vec::new(), second: Vec::new() }
    }

    pub fn beam(
        mark: u32,
        head: [u32; 8],
        tension: &[(u32, u32)],
        compression: &[(u32, u32)],
        tail: [u32; 11],
    ) -> Self {
        let mut record = Record::new(mark, 1, &head);
        record.fields[10..21].copy_from_slice(&tail);
        record.first = groups(tension);
        record.second = groups(compression);
        record.count_groups();
        record
    }

    pub fn column(mark: u32, head: [u32; 4], bars: &[(u32, u32)], tail: [u32; 4]) -> Self {
        let mut record = Record::new(mark, 2, &head);
        record.fields[5..9].copy_from_slice(&tail);
        record.first = groups(bars);
        record.count_groups();
        record
    }

    pub fn mesh(mark: u32, numbers: [u32; 11]) -> Self {
        Record::new(mark, 3, &numbers)
    }

    /// The beam as kind 4, with a point load at this distance.
    pub fn point_loaded(&self, distance: u64) -> Self {
        Record { kind: 4, ..self.with(place::beam::LOAD, distance) }
    }

    pub fn is_beam(&self) -> bool {
        matches!(self.kind, 1 | 4)
    }

    /// Sets the group counts to the lists' lengths.
    pub fn count_groups(&mut self) {
        match self.kind {
            1 | 4 => {
                self.fields[place::beam::TENSION] = self.first.len() as u32;
                self.fields[place::beam::COMPRESSION] = self.second.len() as u32;
            }
            2 => self.fields[place::column::GROUPS] = self.first.len() as u32,
            _ => {}
        }
    }

    /// How many groups of each list are the member's: as its counts say, none where its kind has no
    /// such list.
    pub fn counts(&self) -> [usize; 2] {
        let count = |field: usize| self.fields[field] as usize;
        match self.kind {
            1 | 4 => [count(place::beam::TENSION), count(place::beam::COMPRESSION)],
            2 => [count(place::column::GROUPS), 0],
            _ => [0, 0],
        }
    }

    /// How many fields the kind has.
    pub fn field_count(&self) -> usize {
        match self.kind {
            1 => place::beam::COUNT,
            4 => place::beam::POINT_COUNT,
            2 => place::column::COUNT,
            _ => place::mesh::COUNT,
        }
    }

    pub fn with(&self, field: usize, value: u64) -> Self {
        let mut record = self.clone();
        record.fields[field] = u32::try_from(value).unwrap_or(u32::MAX);
        record
    }

    pub fn built(&self) -> Built {
        Built { mark: self.mark, kind: self.kind, fields: self.fields }
    }

    /// Which list a field counts, if any: 0 for the first, 1 for the second.
    fn list_counted_by(&self, field: usize) -> Option<usize> {
        match (self.kind, field) {
            (1 | 4, place::beam::TENSION) | (2, place::column::GROUPS) => Some(0),
            (1 | 4, place::beam::COMPRESSION) => Some(1),
            _ => None,
        }
    }

    /// The list that a field counts, if any.
    pub fn list(&self, field: usize) -> Option<&[Group]> {
        let lists = [&self.first, &self.second];
        self.list_counted_by(field).map(|list| lists[list].as_slice())
    }

    /// The schedule's numbers of this member: groups follow their count.
    pub fn numbers(&self) -> Vec<u32> {
        let mut numbers = vec![self.mark, self.kind];
        for field in 0..self.field_count() {
            numbers.push(self.fields[field]);
            for group in self.list(field).into_iter().flatten() {
                numbers.extend([group.diameter, group.bars]);
            }
        }
        numbers
    }

    /// The member that a schedule's next numbers are.
    fn next(numbers: &mut impl Iterator<Item = u32>) -> Self {
        let mut next = || numbers.next().expect("a number");
        let mut record = Record::new(next(), next(), &[]);
        for field in 0..record.field_count() {
            let number = next();
            record.fields[field] = number;
            if let Some(list) = record.list_counted_by(field) {
                let groups = (0..number).map(|_| Group { diameter: next(), bars: next() });
                [&mut record.first, &mut record.second][list].extend(groups);
            }
        }
        record
    }

    /// The member, where it is accepted as the only one of a schedule.
    pub fn read(&self) -> Option<Member> {
        let members = schedule::read(&encode(std::slice::from_ref(self))).ok()?;
        members.first().copied()
    }
}

/// Appends a number in groups of seven bits, lowest first.
pub fn push_number(bytes: &mut Vec<u8>, mut value: u64) {
    while value >= 0x80 {
        bytes.push(value as u8 | 0x80);
        value >>= 7;
    }
    bytes.push(value as u8);
}

/// The schedule of these members.
pub fn encode(records: &[Record]) -> Vec<u8> {
    let mut bytes = Vec::new();
    push_number(&mut bytes, records.len() as u64);
    for record in records {
        for number in record.numbers() {
            push_number(&mut bytes, u64::from(number));
        }
    }
    bytes
}

/// The members of an accepted schedule.
pub fn decode(bytes: &[u8]) -> Vec<Record> {
    decode_first(bytes, u32::MAX)
}

/// The first members of a schedule, at most this many, whose numbers are all there.
pub fn decode_first(bytes: &[u8], most: u32) -> Vec<Record> {
    let numbers = bytes.split_inclusive(|byte| *byte < 0x80);
    let mut numbers = numbers.map(|groups| {
        groups.iter().rev().fold(0, |value, group| value << 7 | u32::from(group & 0x7f))
    });
    let count = numbers.next().expect("a count").min(most);
    (0..count).map(|_| Record::next(&mut numbers)).collect()
}
