//! The comparison and the claim notice what they are there to notice.

mod grades;
mod moments;
mod points;
mod webs;
mod written;

use std::os::unix::process::ExitStatusExt;
use std::process::Command;

use crate::branches::{
    required, required_of_grades, required_of_moments, required_of_point_loads, required_of_webs,
    required_of_writer, Entry,
};
use crate::claim::check_line;
use crate::comparison::{Checker, Comparison, Model};
use crate::guard::{List, Words};
use crate::library::{BarTotals, Utilization};
use crate::make::record::place;
use crate::make::words::of_records;
use crate::make::{random_member, Random, Record};
use crate::model::built::{Built, Group};
use crate::model::member::Member;
use crate::model::outcome::{Check, Outcome};
use crate::model::report;
use crate::model::schedule::Refusal;
use crate::runs;

#[derive(Clone, Copy, Debug, PartialEq)]
enum Fault {
    None,
    /// A byte past the text is changed.
    PastText,
    /// A refusal changes the buffer.
    BufferOnRefusal,
    /// A refusal names another member.
    OtherMember,
    /// The text's last figure is another.
    OtherText,
    /// A share's last bit is another.
    OtherShare,
    /// The number at this place of the answer to a list is another.
    OtherTotal(usize),
    /// A group past the count is taken as well, where it can be read.
    PastCount,
    /// A group past the count, or a word past the last whole member, is read; the answer is right.
    ReadPastCount,
    /// The writer takes a beam's lists for each other.
    Exchanged,
    /// The writer takes the groups of a beam's lists for each other, not their counts.
    GroupsExchanged,
    /// The writer takes the number of words for one of 32 bits.
    NarrowLength,
    /// The writer refuses a schedule that fills its buffer.
    ExactRoom,
    /// The writer changes a byte before it answers 13.
    ByteBefore13,
    /// The writer answers 13 before a later member's own question.
    RoomFirst,
    /// The writer does not compare marks with those before.
    MarksAlone,
    /// The writer leaves the count out.
    NoCount,
}

struct Faulty(Fault);

impl Faulty {
    fn spoil(&self, answer: Result<usize, Refusal>, out: &mut [u8]) -> Result<usize, Refusal> {
        match (self.0, answer) {
            (Fault::PastText, Ok(length)) if length < out.len() => out[length] ^= 1,
            (Fault::OtherText, Ok(length)) => out[length.max(2) - 2] ^= 1,
            (Fault::BufferOnRefusal, Err(_)) if !out.is_empty() => out[0] ^= 1,
            (Fault::OtherMember, Err(refusal)) => {
                return Err(Refusal { member: refusal.member + 1, ..refusal });
            }
            _ => {}
        }
        answer
    }

    /// The count that is taken for a list's.
    fn count(&self, list: List, count: usize) -> usize {
        match self.0 {
            Fault::PastCount if count < list.readable().len() => count + 1,
            Fault::ReadPastCount if count < list.length() => {
                // SAFETY: none where the list's rest cannot be read; there it is to fault.
                unsafe { list.start().wrapping_add(count).read_volatile() };
                count
            }
            _ => count,
        }
    }

    /// The member with that count of its first list.
    fn built(&self, built: &Built, first: List) -> Built {
        let mut built = *built;
        let count = match built.kind {
            1 | 4 => &mut built.fields[place::beam::TENSION],
            2 => &mut built.fields[place::column::GROUPS],
            _ => &mut 0,
        };
        *count = self.count(first, *count as usize) as u32;
        built
    }
}

impl Checker for Faulty {
    fn report(&self, schedule: &[u8], out: &mut [u8]) -> Result<usize, Refusal> {
        let answer = Model.report(schedule, out);
        self.spoil(answer, out)
    }

    fn member_report(
        &self,
        built: &Built,
        first: List,
        second: List,
        out: &mut [u8],
    ) -> Result<usize, Refusal> {
        let answer = Model.member_report(&self.built(built, first), first, second, out);
        self.spoil(answer, out)
    }

    fn member_utilization(&self, built: &Built, first: List, second: List) -> Utilization {
        let mut utilization = Model.member_utilization(&self.built(built, first), first, second);
        if self.0 == Fault::OtherShare && utilization.reached[0] {
            utilization.shares[0] ^= 1;
        }
        utilization
    }

    fn bar_totals(&self, groups: List, count: usize) -> BarTotals {
        let mut totals = Model.bar_totals(groups, self.count(groups, count));
        match self.0 {
            Fault::OtherMember if totals.question > 0 => totals.member += 1,
            Fault::OtherTotal(0) => totals.question ^= 1,
            Fault::OtherTotal(1) => totals.member ^= 1,
            Fault::OtherTotal(2) => totals.bars ^= 1,
            Fault::OtherTotal(3) => totals.area ^= 1,
            Fault::OtherTotal(4) => totals.diameters ^= 1,
            Fault::OtherTotal(_) => totals.squares ^= 1,
            _ => {}
        }
        totals
    }

    fn write_schedule(&self, words: Words, out: &mut [u8]) -> Result<usize, Refusal> {
        self.write(words, out)
    }
}

/// Makes a mistake about members that are given in one way.
struct Mistaken<M>(M, Entry);

impl<M: Copy + Default> Mistaken<M> {
    /// The mistake about members that are given so.
    fn about(&self, entry: Entry) -> M {
        if self.1 == entry {
            self.0
        } else {
            M::default()
        }
    }
}

/// The member's line with this outcome, without its newline.
fn line_of(member: &Member, outcome: &Outcome) -> String {
    let word = outcome.failed.map_or("OK", Check::name);
    let mut words = vec![member.mark.to_string(), word.to_string()];
    words.extend(outcome.figures().iter().map(u64::to_string));
    words.resize(6, "-".to_string());
    words.join(" ")
}

/// Puts the bytes into a buffer that has room for them.
fn put(bytes: &[u8], out: &mut [u8], no: Refusal) -> Result<usize, Refusal> {
    out.get_mut(..bytes.len()).ok_or(no)?.copy_from_slice(bytes);
    Ok(bytes.len())
}

fn mesh() -> Record {
    Record::mesh(3, [1, 30, 10, 1, 0, 0, 3, 1, 0, 270, 350])
}

/// Document 01's beam 1, with a group past its count.
fn beam() -> Record {
    let head = [250, 500, 250, 0, 40, 0, 30, 1];
    let tail = [8, 2, 200, 1, 30, 6000, 150_000, 90_000, 120_000, 1, 0];
    let mut record = Record::beam(1, head, &[(20, 4)], &[], tail);
    record.first.push(Group { diameter: 12, bars: 2 });
    record
}

#[test]
fn faults_are_noticed() {
    let random = Random::new(1);
    let faults = [
        (Fault::None, true, true, true),
        (Fault::PastText, false, false, true),
        (Fault::BufferOnRefusal, false, false, true),
        (Fault::OtherMember, false, false, false),
        (Fault::OtherText, false, false, true),
        (Fault::OtherShare, true, false, true),
        (Fault::PastCount, true, false, false),
    ];
    for (fault, schedule, built, list) in faults {
        let mut comparison = Comparison::new(Faulty(fault), &random);
        assert_eq!(comparison.records(&[mesh()]).is_ok(), schedule);
        assert_eq!(comparison.built(&beam()).is_ok(), built);
        let lists = [1, 3].map(|count| comparison.list(&beam().first, count).is_ok());
        assert_eq!(lists.into_iter().all(|equal| equal), list);
    }
}

#[test]
fn other_totals_are_noticed() {
    let random = Random::new(1);
    for place in 0..6 {
        let mut comparison = Comparison::new(Faulty(Fault::OtherTotal(place)), &random);
        for count in [0, 1, 2, 3, usize::MAX] {
            assert!(comparison.list(&beam().first, count).is_err());
        }
    }
}

/// Names the input of a test that is run again in a process of its own.
const INPUT: &str = "KOXALTES_TESTS_INPUT";
const SEGMENTATION_FAULT: i32 = 11;

#[test]
fn a_read_past_the_count_faults() {
    if let Ok(input) = std::env::var(INPUT) {
        let random = Random::new(1);
        let mut comparison = Comparison::new(Faulty(Fault::ReadPastCount), &random);
        let outcome = match input.as_str() {
            "list" => comparison.list(&beam().first, 1),
            "words" => comparison.words(&of_records(&[beam(), mesh()], &random)),
            "beam" => comparison.built(&beam()),
            _ => comparison.built(&mesh()),
        };
        panic!("{outcome:?} after the read");
    }
    for input in ["list", "words", "beam", "mesh"] {
        let mut again = Command::new(std::env::current_exe().expect("a path"));
        again.args(["--exact", "faults::a_read_past_the_count_faults"]).env(INPUT, input);
        let ended = again.output().expect("a run").status;
        assert_eq!(ended.signal(), Some(SEGMENTATION_FAULT), "{input}");
    }
}

#[test]
fn the_model_equals_itself_and_meets_demand_3() {
    let random = Random::new(9);
    let mut comparison = Comparison::new(Model, &random);
    assert_eq!(runs::quick(&mut comparison, &random), Ok(()));
    assert_eq!(comparison.tally.missing(required()), Vec::new());
    assert_eq!(comparison.tally.missing(required_of_point_loads()), Vec::new());
    assert_eq!(comparison.tally.missing(required_of_moments()), Vec::new());
    assert_eq!(comparison.tally.missing(required_of_webs()), Vec::new());
    assert_eq!(comparison.tally.missing(required_of_grades()), Vec::new());
    assert_eq!(comparison.writer_tally.missing(required_of_writer()), Vec::new());
    assert!(comparison.totals_answers[0] > 0 && comparison.totals_answers[7] > 0);
}

/// The member's line without its newline.
fn line(record: &Record) -> Option<(Member, Vec<String>)> {
    let member = record.read()?;
    let mut out = [0; 200];
    let built = record.built();
    let length = report::member_report(&built, &record.first, &record.second, &mut out).ok()?;
    let text = std::str::from_utf8(&out[..length - 1]).ok()?;
    Some((member, text.split(' ').map(str::to_string).collect()))
}

/// A figure moved by one or two units, and by which moves demand 3 is broken for certain.
fn moved(words: &[String], place: usize, by: i64) -> Option<String> {
    let mut words = words.to_vec();
    let figure: i64 = words[place + 2].parse().ok()?;
    words[place + 2] = (figure + by).max(0).to_string();
    Some(words.join(" "))
}

#[test]
fn the_claim_rejects_moved_figures() {
    let random = Random::new(5);
    let mut rejected = 0;
    for _ in 0..2000 {
        let record = random_member(&random);
        let Some((member, words)) = line(&record) else {
            continue;
        };
        assert_eq!(check_line(&member, &words.join(" ")), Ok(()));
        let moves: &[(usize, i64)] = match record.kind {
            1 | 4 => &[(0, 1), (0, -1), (1, 2), (1, -2), (2, -2), (2, 2), (3, -2), (3, 2)],
            2 => &[(0, 1), (0, -1)],
            _ => &[(0, 1), (0, -1), (1, 1), (1, -1)],
        };
        for &(place, by) in moves {
            if let Some(line) = moved(&words, place, by) {
                assert!(check_line(&member, &line).is_err(), "{line}");
                rejected += 1;
            }
        }
    }
    assert!(rejected > 5000, "{rejected}");
}

#[test]
fn the_claim_rejects_wrong_words() {
    let random = Random::new(6);
    for _ in 0..2000 {
        let record = random_member(&random);
        let Some((member, mut words)) = line(&record) else {
            continue;
        };
        let failed = member.check().failed;
        words[1] = "OK".to_string();
        let plain =
            ["6.3.1", "4.2.2-3", "6.3.1v", "5.5.6s", "5.5.6r", "4.4.1", "5.6.1", "5.6.2", "4.2.4s"];
        if failed.is_some_and(|check| plain.contains(&check.name())) {
            assert!(check_line(&member, &words.join(" ")).is_err());
        }
        if failed.is_none() {
            for name in plain {
                words[1] = name.to_string();
                assert!(check_line(&member, &words.join(" ")).is_err());
            }
        }
        words[1] = "4.9.9".to_string();
        assert!(check_line(&member, &words.join(" ")).is_err());
    }
}
