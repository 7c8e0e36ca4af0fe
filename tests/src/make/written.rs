//! Lists of members for the writer.

use super::record::place::column;
use super::record::Record;
use super::words::{junk, of_records};
use super::{accepted, accepted_list, flaws, without_rise, Random};
use crate::model::held::WORDS;

/// The count of 500 members.
const LONGEST_COUNT: usize = 2;
/// No beam of kind 1 has more bytes; one has as many, where each field is as long as it may be.
pub const LONGEST_BEAM: usize = 59;
/// No member has more bytes: a point-loaded beam has two for a.
pub const LONGEST_MEMBER: usize = 61;

/// What the library promises to be enough for a schedule of this many members.
pub fn promised(members: usize) -> usize {
    LONGEST_COUNT + members * LONGEST_MEMBER
}

/// A beam that passes the questions, whose every field has as many bytes as it may have; so has a
/// mark above 16383.
pub fn longest_beam(mark: u32) -> Record {
    let groups = [(25, 10); 4];
    let head = [1000, 2000, 3000, 1000, 200, 200, 50, 2];
    let tail = [12, 8, 400, 2, 199, 12_000, 100_000_000, 100_000_000, 100_000_000, 3, 1];
    Record::beam(mark, head, &groups, &groups, tail)
}

/// The same beam, point-loaded.
pub fn longest_member(mark: u32) -> Record {
    longest_beam(mark).point_loaded(12_000)
}

/// Beams of both kinds with each number of tension and of compression groups, and columns with each
/// of theirs.
pub fn group_counts() -> Vec<Record> {
    let groups = [(20, 3), (12, 2), (25, 1), (16, 4)];
    let others = [(14, 2), (18, 1), (10, 5), (22, 3)];
    let tail = [8, 2, 200, 1, 30, 6000, 150_000, 90_000, 120_000, 1, 0];
    let mut records = Vec::new();
    for tension in 1..=4 {
        for compression in 0..=4 {
            let distance = if compression == 0 { 0 } else { 35 };
            let head = [250, 600, 250, 0, 40, distance, 30, 1];
            let (first, second) = (&groups[..tension], &others[..compression]);
            let beam = Record::beam(1, head, first, second, tail);
            records.extend([beam.point_loaded(2000), beam]);
        }
        let head = [400, 400, 30, 1];
        records.push(Record::column(1, head, &groups[..tension], [8, 250, 4000, 2_500_000]));
    }
    number(&mut records);
    records
}

/// Gives records the marks 1, 2 and so on.
pub fn number(records: &mut [Record]) {
    for (record, mark) in records.iter_mut().zip(1..) {
        record.mark = mark;
    }
}

/// Numbers at which the bytes become more.
const LENGTHS: [u32; 10] =
    [0, 127, 128, 16_383, 16_384, 2_097_151, 2_097_152, 268_435_455, 268_435_456, 1_000_000_000];

/// Point-loaded beams whose a has each number of bytes.
pub fn load_lengths() -> Vec<Record> {
    let mut records: Vec<Record> =
        [0, 127, 128, 12_000].map(|distance| longest_beam(1).point_loaded(distance)).to_vec();
    number(&mut records);
    records
}

/// Columns whose marks and N have each number of bytes.
pub fn number_lengths() -> Vec<Vec<Record>> {
    let column = Record::column(1, [400, 400, 30, 1], &[(20, 8)], [8, 250, 4000, 0]);
    let mut loads: Vec<Record> =
        LENGTHS.iter().map(|&load| column.with(column::AXIAL, u64::from(load))).collect();
    number(&mut loads);
    let marks = [1, 127, 128, 16_383, 16_384, 999_999];
    vec![loads, marks.map(|mark| Record { mark, ..column.clone() }).to_vec()]
}

/// Three members with marks in range or not, rising or not.
pub fn mark_lists(random: &Random) -> Vec<Vec<Record>> {
    let marks = [
        [1, 2, 3],
        [999_997, 999_998, 999_999],
        [1, 1, 2],
        [1, 2, 2],
        [2, 1, 3],
        [1, 3, 2],
        [999_999, 1, 2],
        [0, 1, 2],
        [1, 0, 2],
        [1, 2, 0],
        [1_000_000, 1_000_001, 1_000_002],
        [1, 2, 1_000_000],
        [1, u32::MAX, 2],
        [256, 1, 2],
        [1 << 31, 1, 2],
    ];
    let member = || accepted(random);
    marks.map(|marks| marks.map(|mark| Record { mark, ..member() }).to_vec()).to_vec()
}

/// Few members or many, with up to two flaws, and up to 41 words left over.
pub fn random_list(random: &Random) -> Vec<u32> {
    let length = if random.one_in(60) { random.within(100, 502) } else { random.below(8) };
    let mut records = accepted_list(random, length as usize);
    if random.one_in(10) {
        without_rise(&mut records, random);
    }
    for _ in 0..random.pick(&[0, 0, 0, 1, 1, 2]) {
        if length > 0 {
            let place = random.below(length) as usize;
            let question = random.pick(&flaws::QUESTIONS);
            flaws::flaw(&mut records[place], question, random);
        }
    }
    let mut words = of_records(&records, random);
    if random.one_in(6) && length > 0 {
        let place = random.below(words.len() as u64) as usize;
        words[place] = junk(random);
    }
    if random.one_in(3) {
        left_over(&mut words, 1 + random.below(WORDS as u64 - 1) as usize, random);
    }
    words
}

/// Appends words that make no member.
pub fn left_over(words: &mut Vec<u32>, count: usize, random: &Random) {
    words.extend((0..count).map(|_| junk(random)));
}
