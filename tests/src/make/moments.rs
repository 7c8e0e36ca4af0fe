//! Beams at the edge of question 14: Mq at most M (document 02, wish 5).

use super::points::first_beam;
use super::record::place::beam::{MOMENT, MOMENT_QUASI};
use super::record::{encode, Record};
use crate::model::built::Group;
use crate::model::schedule::Refusal;

/// The largest M and Mq.
pub const MOST: u64 = 100_000_000;

/// M and Mq of a beam.
pub fn moments(record: &Record) -> (u64, u64) {
    let [design, service] = [MOMENT, MOMENT_QUASI].map(|field| u64::from(record.fields[field]));
    (design, service)
}

/// The beam with this M and Mq.
pub fn with_moments(record: &Record, design: u64, service: u64) -> Record {
    record.with(MOMENT, design).with(MOMENT_QUASI, service)
}

/// The beam with Mq around its M, with its moments exchanged, and with moments at the ends of their ranges;
/// beside each the answer, 14 or 0.
pub fn around_design(record: &Record) -> Vec<(Record, u32)> {
    let (design, service) = moments(record);
    let moments = [
        (design, design.saturating_sub(1)),
        (design, design),
        (design, design + 1),
        (service, design),
        (0, 1),
        (0, MOST),
        (1, 1),
        (1, 2),
        (1, MOST),
        (MOST, 1),
        (MOST - 1, MOST),
        (MOST, MOST),
    ];
    let in_range = moments.into_iter().filter(|(_, service)| (1..=MOST).contains(service));
    let answer = |(design, service)| if service > design { 14 } else { 0 };
    in_range.map(|pair| (with_moments(record, pair.0, pair.1), answer(pair))).collect()
}

/// Document 01's beam 1, and the same under a point load.
pub fn beams() -> [Record; 2] {
    [first_beam(), first_beam().point_loaded(6000)]
}

/// The beam with Mq one above M, and these groups of tension bars.
fn service_above(record: &Record, groups: &[(u32, u32)]) -> Record {
    let mut record = with_moments(record, 90_000, 90_001);
    record.first = groups.iter().map(|&(diameter, bars)| Group { diameter, bars }).collect();
    record.count_groups();
    record
}

/// Files of one beam, refused by 9, 10 or 14 where it has a no to 14.
fn beams_refused(record: &Record) -> Vec<(Vec<u8>, Refusal)> {
    let file = |record, question| (encode(&[record]), Refusal { question, member: 1 });
    vec![
        file(service_above(record, &[(20, 4)]), 14),
        file(with_moments(record, 90_000, 150_000), 14),
        file(with_moments(record, 0, 1), 14),
        file(service_above(record, &[(6, 20), (6, 20), (6, 1)]), 9),
        file(service_above(record, &[(50, 20)]), 10),
    ]
}

/// Document 01's mesh 3 with this mark.
pub(super) fn mesh(mark: u32) -> Record {
    Record::mesh(mark, [1, 30, 10, 1, 0, 0, 3, 1, 0, 270, 350])
}

/// Files of the beam with a no to 14 beside a mesh, whose own no comes before or after it: a mark that does not rise,
/// an unknown kind, a number that is cut or padded, a byte after all members.
fn files_refused(record: &Record) -> Vec<(Vec<u8>, Refusal)> {
    let at = |question, member| Refusal { question, member };
    let first = service_above(record, &[(20, 4)]);
    let second = Record { mark: 2, ..first.clone() };
    let unknown = Record { kind: 5, ..mesh(2) };
    let whole = encode(&[first.clone(), mesh(2)]);
    let cut = whole[..whole.len() - 1].to_vec();
    let mut padded = whole.clone();
    *padded.last_mut().expect("a byte") |= 0x80;
    padded.push(0);
    let mut longer = whole.clone();
    longer.push(0);
    let beam = encode(std::slice::from_ref(&first));
    vec![
        (whole, at(14, 1)),
        (cut, at(14, 1)),
        (padded, at(14, 1)),
        (longer, at(14, 1)),
        (beam[..beam.len() - 1].to_vec(), at(2, 1)),
        (encode(&[first.clone(), mesh(1)]), at(14, 1)),
        (encode(&[first, unknown.clone()]), at(14, 1)),
        (encode(&[mesh(1), second.clone()]), at(14, 2)),
        (encode(&[mesh(2), second.clone()]), at(5, 2)),
        (encode(&[Record { mark: 1, ..unknown }, second]), at(6, 1)),
    ]
}

/// Files of beams with a no to 14, and the refusal.
pub fn refused_files() -> Vec<(Vec<u8>, Refusal)> {
    let files = |record: &Record| [beams_refused(record), files_refused(record)].concat();
    beams().iter().flat_map(files).collect()
}
