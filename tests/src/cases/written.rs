//! Schedules written: document 01's members, a point-loaded beam, and the edges of request 2.

use std::path::Path;

use super::{beam, column, mesh};
use crate::make::record::place;
use crate::make::words::{counts, end, of_records, GROUPS, KIND, LOAD, MARK};
use crate::make::written::{self, LONGEST_BEAM, LONGEST_MEMBER};
use crate::make::{encode, Random, Record};
use crate::model::held::WORDS;
use crate::model::writing::write_schedule;

/// The file of these words in a buffer of this length, or the question and its member. A refusal
/// changes no byte, a file none after it.
fn file_in(words: &[u32], room: usize) -> Result<Vec<u8>, (u32, u32)> {
    let mut out = vec![7; room];
    let answer = write_schedule(words, words.len(), &mut out);
    let length = answer.unwrap_or(0);
    assert!(out[length..].iter().all(|&byte| byte == 7));
    out.truncate(length);
    answer.map(|_| out).map_err(|refusal| (refusal.question, refusal.member))
}

fn file(words: &[u32]) -> Result<Vec<u8>, (u32, u32)> {
    file_in(words, 60_000)
}

/// Words of these members; junk has no effect.
fn words(records: &[Record]) -> Vec<u32> {
    of_records(records, &Random::new(2))
}

fn three() -> [Record; 3] {
    [beam(), column(), mesh()]
}

/// Document 01's beam 1 under a point load, with a mark after the three.
fn point_loaded(distance: u64) -> Record {
    Record { mark: 4, ..beam().point_loaded(distance) }
}

#[test]
fn no_members() {
    assert_eq!(file(&[]), Ok(vec![0]));
    assert_eq!(file_in(&[], 1), Ok(vec![0]));
    assert_eq!(file_in(&[], 0), Err((13, 0)));
    assert_eq!(file(&[9; WORDS - 1]), Ok(vec![0]));
}

#[test]
fn printed_schedule() {
    let crates = Path::new(env!("CARGO_MANIFEST_DIR")).join("../crates");
    let stored = std::fs::read(crates.join("cage_report/stdin")).unwrap();
    assert_eq!(file(&words(&three())), Ok(stored));
}

/// The words of document 01's members one by one, all that has no effect 0.
#[test]
fn places_of_words() {
    let mut words = [0; 3 * WORDS];
    let head = [1, 1, 250, 500, 250, 0, 40, 0, 30, 1, 1, 20, 4];
    words[..13].copy_from_slice(&head);
    let tail = [8, 2, 200, 1, 30, 6000, 150_000, 90_000, 120_000, 1, 0];
    words[28..39].copy_from_slice(&tail);
    words[42..51].copy_from_slice(&[2, 2, 400, 400, 30, 1, 1, 20, 8]);
    words[57..61].copy_from_slice(&[8, 250, 4000, 2_500_000]);
    words[84..97].copy_from_slice(&[3, 3, 1, 30, 10, 1, 0, 0, 3, 1, 0, 270, 350]);
    assert_eq!(file(&words), Ok(encode(&three())));
}

/// Kind 4 has kind 1's words, then a in slot 37.
#[test]
fn place_of_the_load() {
    let mut words = [0; WORDS];
    let head = [4, 4, 250, 500, 250, 0, 40, 0, 30, 1, 1, 20, 4];
    words[..13].copy_from_slice(&head);
    let tail = [8, 2, 200, 1, 30, 6000, 150_000, 90_000, 120_000, 1, 0, 1000];
    words[28..40].copy_from_slice(&tail);
    let bytes = encode(&[point_loaded(1000)]);
    assert_eq!(bytes[bytes.len() - 4..], [1, 0, 0xe8, 7]);
    assert_eq!(file(&words), Ok(bytes));
    for (distance, answer) in [(6001, 8), (12_000, 8), (12_001, 7), (u32::MAX, 7)] {
        words[LOAD] = distance;
        assert_eq!(file(&words), Err((answer, 1)));
        words[KIND] = 1;
        assert_eq!(file(&words), Ok(encode(&[Record { mark: 4, ..beam() }])));
        words[KIND] = 4;
    }
}

/// Kind 1, and kind 4 with a = 0: other members, other files.
#[test]
fn load_at_the_support() {
    let (one, four) = (Record { mark: 4, ..beam() }, point_loaded(0));
    let files = [one, four].map(|record| file(&words(&[record])).unwrap());
    assert_eq!(files[1].len(), files[0].len() + 1);
    assert_eq!((files[0][2], files[1][2]), (1, 4));
    assert_eq!(files[0][3..], files[1][3..files[0].len()]);
    assert_eq!(files[1].last(), Some(&0));
}

#[test]
fn every_number_of_groups() {
    for record in written::group_counts() {
        let records = [record];
        assert_eq!(file(&words(&records)), Ok(encode(&records)), "{records:?}");
    }
    let mut none = beam();
    none.first.clear();
    none.count_groups();
    assert_eq!(file(&words(&[none])), Err((7, 1)));
    for count in [0, 5, u32::MAX] {
        let record = column().with(place::column::GROUPS, u64::from(count));
        assert_eq!(file(&words(&[record])), Err((7, 1)));
    }
}

#[test]
fn rooms() {
    let (words, bytes) = (words(&three()), encode(&three()));
    assert_eq!(file_in(&words, bytes.len()), Ok(bytes.clone()));
    assert_eq!(file_in(&words, bytes.len() + 1), Ok(bytes.clone()));
    assert_eq!(file_in(&words, 2 + 3 * LONGEST_MEMBER), Ok(bytes.clone()));
    assert_eq!(file_in(&words, 1 + 3 * LONGEST_MEMBER), Ok(bytes.clone()));
    assert_eq!(file_in(&words, bytes.len() - 1), Err((13, 0)));
    assert_eq!(file_in(&words, 0), Err((13, 0)));
}

#[test]
fn number_of_members() {
    let mut records = vec![mesh(); 500];
    written::number(&mut records);
    assert_eq!(file(&words(&records)), Ok(encode(&records)));
    let mut left_over = words(&records);
    left_over.extend([0; WORDS - 1]);
    assert_eq!(file(&left_over), Ok(encode(&records)));
    records.push(Record { mark: 501, ..mesh() });
    assert_eq!(file(&words(&records)), Err((4, 0)));
    records[0].mark = 0;
    assert_eq!(file_in(&words(&records), 0), Err((4, 0)));
}

/// Any word may stand past a count and past the last field.
#[test]
fn words_without_effect() {
    let [first, second, third] = three();
    let records = [first, second, third, point_loaded(1000)];
    let base = words(&records);
    let mut tried = 0;
    for member in 0..4 {
        let words = &base[WORDS * member..][..WORDS];
        let kind = words[KIND];
        let past_counts = counts(kind).iter().flat_map(|&count| {
            let list = count + 1..count + 1 + 2 * GROUPS;
            list.skip(2 * words[count] as usize)
        });
        for place in past_counts.chain(end(kind)..WORDS) {
            for value in [0, 1, 20, u32::MAX] {
                let mut words = base.clone();
                words[WORDS * member + place] = value;
                assert_eq!(file(&words), Ok(encode(&records)), "{member} {place}");
                tried += 1;
            }
        }
    }
    assert_eq!(tried, 4 * (6 + 8 + 3 + 6 + 23 + 29 + 6 + 8 + 2));
}

/// Document 02: no written file exceeds 60,000 bytes.
#[test]
fn longest_member() {
    let one = |record| file(&words(&[record])).map(|file| file.len());
    assert_eq!(one(written::longest_beam(16_384)), Ok(1 + LONGEST_BEAM));
    assert_eq!(one(written::longest_member(16_384)), Ok(1 + LONGEST_MEMBER));
    let records: Vec<Record> = (999_500..1_000_000).map(written::longest_member).collect();
    let bytes = file(&words(&records)).unwrap();
    assert_eq!(bytes.len(), 30_502);
    assert_eq!(bytes.len(), written::promised(500));
    assert_eq!(bytes, encode(&records));
}

#[test]
fn marks() {
    let cases = [
        ([1, 2, 3], None),
        ([999_997, 999_998, 999_999], None),
        ([1, 1, 2], Some(2)),
        ([1, 2, 2], Some(3)),
        ([3, 2, 4], Some(2)),
        ([1, 3, 2], Some(3)),
        ([0, 1, 2], Some(1)),
        ([1, 2, 1_000_000], Some(3)),
    ];
    for (marks, refused) in cases {
        let mut words = words(&three());
        for (member, mark) in words.chunks_exact_mut(WORDS).zip(marks) {
            member[MARK] = mark;
        }
        let answer = file(&words).map(|_| ());
        assert_eq!(answer, refused.map_or(Ok(()), |member| Err((5, member))));
    }
}

/// A member's own question is put before 13, whatever room the members before it need.
#[test]
fn buffer_asked_last() {
    let mut records = three();
    records[2].fields[place::mesh::SEISMIC] = 5;
    for room in [0, 1, 10, 60_000] {
        assert_eq!(file_in(&words(&records), room), Err((7, 3)));
    }
    records[1].fields[place::column::B] = 401;
    assert_eq!(file_in(&words(&records), 0), Err((8, 2)));
    records[0].kind = 5;
    assert_eq!(file_in(&words(&records), 0), Err((6, 1)));
}
