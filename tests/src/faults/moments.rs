//! The comparison notices mistakes about question 14.

use super::Mistaken;
use crate::branches::{Entry, ENTRIES};
use crate::comparison::{Checker, Comparison, Model};
use crate::guard::{List, Words};
use crate::library::{BarTotals, Utilization};
use crate::make::record::place::beam;
use crate::make::words::{KIND, MOMENT, MOMENT_QUASI};
use crate::make::{decode_first, encode, Random};
use crate::model::built::{self, Built, Group};
use crate::model::held::{self, WORDS};
use crate::model::schedule::{self, Refusal};
use crate::model::writing;
use crate::runs;

#[derive(Clone, Copy, Debug, Default, PartialEq)]
enum Mistake {
    #[default]
    None,
    /// Mq is to be below M.
    Below,
    /// M is to be at most Mq.
    Exchanged,
    /// The question is put before this one of the same member, 8 to 10.
    Before(u32),
    /// It is put after all other questions of all members.
    Last,
    /// It is not put to this kind.
    NotTo(u32),
    /// It is not put where shares are asked for.
    NotForShares,
    /// It names no member.
    Unnamed,
}

/// Members as one entry is given them.
#[derive(Clone)]
enum Given<'a> {
    File(Vec<u8>),
    Built(Built, &'a [Group], &'a [Group]),
    Words(Vec<u32>, usize),
}

impl Given<'_> {
    fn refusal(&self) -> Option<Refusal> {
        match self {
            Given::File(bytes) => schedule::read(bytes).err(),
            Given::Built(built, first, second) => built::read(built, first, second).err(),
            Given::Words(words, length) => held::read(words, *length).err(),
        }
    }

    /// How many members there are, which is below 128.
    fn members(&self) -> u32 {
        match self {
            Given::File(bytes) => u32::from(bytes[0]),
            Given::Built(..) => 1,
            Given::Words(_, length) => (length / WORDS) as u32,
        }
    }

    /// Kind, M and Mq of a member whose fields are all there.
    fn moments(&self, member: u32) -> (u32, u32, u32) {
        match self {
            Given::File(bytes) => {
                let record = decode_first(bytes, member).pop().expect("a member");
                (record.kind, record.fields[beam::MOMENT], record.fields[beam::MOMENT_QUASI])
            }
            Given::Built(built, ..) => {
                (built.kind, built.fields[beam::MOMENT], built.fields[beam::MOMENT_QUASI])
            }
            Given::Words(words, _) => {
                let words = &words[WORDS * (member as usize - 1)..][..WORDS];
                (words[KIND], words[MOMENT], words[MOMENT_QUASI])
            }
        }
    }

    /// Raises M of a member, whose fields are all there, to Mq.
    fn raise(&mut self, member: u32) {
        let (_, _, service) = self.moments(member);
        match self {
            Given::File(bytes) => {
                let mut records = decode_first(bytes, member);
                let length = encode(&records).len();
                records.last_mut().expect("a member").fields[beam::MOMENT] = service;
                *bytes = [&bytes[..1], &encode(&records)[1..], &bytes[length..]].concat();
            }
            Given::Built(built, ..) => built.fields[beam::MOMENT] = service,
            Given::Words(words, _) => words[WORDS * (member as usize - 1) + MOMENT] = service,
        }
    }

    /// The same members, with M raised wherever 14 would refuse one, so that the other questions answer.
    fn without_14(&self) -> Self {
        let mut given = self.clone();
        while let Some(Refusal { question: 14, member }) = given.refusal() {
            given.raise(member);
        }
        given
    }
}

impl Mistake {
    /// Whether this is taken for a no to 14.
    fn refuses(self, (kind, design, service): (u32, u32, u32)) -> bool {
        let is_no = match self {
            Mistake::Below => service >= design,
            Mistake::Exchanged => design > service,
            Mistake::NotTo(other) => kind != other && service > design,
            _ => service > design,
        };
        matches!(kind, 1 | 4) && is_no
    }

    /// How many of the members are put 14, where the other questions refuse so.
    fn asked(self, other: Option<Refusal>, members: u32) -> u32 {
        match (self, other) {
            (_, None) => members,
            (Mistake::Last, Some(_)) => 0,
            (_, Some(Refusal { question: 11, .. })) => members,
            (Mistake::Before(least), Some(Refusal { question, member }))
                if (least..=10).contains(&question) =>
            {
                member
            }
            (_, Some(Refusal { member, .. })) => member.saturating_sub(1),
        }
    }

    /// The refusal by 14, if there is one; and what is read else.
    fn answer<'a>(self, given: &Given<'a>) -> Result<Given<'a>, Refusal> {
        let others = given.without_14();
        let asked = self.asked(others.refusal(), given.members());
        match (1..=asked).find(|&member| self.refuses(given.moments(member))) {
            Some(_) if self == Mistake::Unnamed => Err(Refusal { question: 14, member: 0 }),
            Some(member) => Err(Refusal { question: 14, member }),
            None => Ok(others),
        }
    }
}

impl Checker for Mistaken<Mistake> {
    fn report(&self, schedule: &[u8], out: &mut [u8]) -> Result<usize, Refusal> {
        let given = Given::File(schedule.to_vec());
        match self.about(Entry::File).answer(&given)? {
            Given::File(bytes) => Model.report(&bytes, out),
            _ => unreachable!(),
        }
    }

    fn member_report(
        &self,
        built: &Built,
        first: List,
        second: List,
        out: &mut [u8],
    ) -> Result<usize, Refusal> {
        let given = Given::Built(*built, first.readable(), second.readable());
        match self.about(Entry::Built).answer(&given)? {
            Given::Built(built, ..) => Model.member_report(&built, first, second, out),
            _ => unreachable!(),
        }
    }

    fn member_utilization(&self, built: &Built, first: List, second: List) -> Utilization {
        let given = Given::Built(*built, first.readable(), second.readable());
        let answer = match self.about(Entry::Built) {
            Mistake::NotForShares => Ok(given.without_14()),
            mistake => mistake.answer(&given),
        };
        match answer {
            Ok(Given::Built(built, ..)) => Model.member_utilization(&built, first, second),
            Ok(_) => unreachable!(),
            Err(refusal) => Utilization::expected(Err(refusal)),
        }
    }

    fn bar_totals(&self, groups: List, count: usize) -> BarTotals {
        Model.bar_totals(groups, count)
    }

    fn write_schedule(&self, words: Words, out: &mut [u8]) -> Result<usize, Refusal> {
        let given = Given::Words(words.readable().to_vec(), words.length());
        match self.about(Entry::Words).answer(&given)? {
            Given::Words(words, length) => writing::write_schedule(&words, length, out),
            _ => unreachable!(),
        }
    }
}

/// What a run of question 14 finds.
fn outcome(mistake: Mistake, entry: Entry) -> Result<(), String> {
    let random = Random::new(5);
    let mut comparison = Comparison::new(Mistaken(mistake, entry), &random);
    runs::moments::moments(&mut comparison, &random, 1)
}

#[test]
fn a_checker_without_mistake_passes() {
    for entry in ENTRIES {
        assert_eq!(outcome(Mistake::None, entry), Ok(()));
    }
}

#[test]
fn mistakes_about_moments_are_noticed() {
    let mistakes: [(Mistake, &[Entry]); 10] = [
        (Mistake::Below, &ENTRIES),
        (Mistake::Exchanged, &ENTRIES),
        (Mistake::Before(8), &ENTRIES),
        (Mistake::Before(9), &ENTRIES),
        (Mistake::Before(10), &ENTRIES),
        (Mistake::Last, &[Entry::File, Entry::Words]),
        (Mistake::NotTo(1), &ENTRIES),
        (Mistake::NotTo(4), &ENTRIES),
        (Mistake::NotForShares, &[Entry::Built]),
        (Mistake::Unnamed, &ENTRIES),
    ];
    for (mistake, entries) in mistakes {
        for &entry in entries {
            let difference = outcome(mistake, entry).expect_err("a difference");
            let input = match entry {
                Entry::File => "schedule ",
                Entry::Built => "Record ",
                Entry::Words => "words ",
            };
            assert!(difference.starts_with(input), "{mistake:?}: {difference}");
        }
    }
}
