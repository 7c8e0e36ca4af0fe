//! The comparison notices what is wrong with a writer.

use super::{Fault, Faulty};
use crate::comparison::{Checker, Comparison, Model};
use crate::guard::Words;
use crate::make::words::{counts, GROUPS, KIND, MARK};
use crate::make::Random;
use crate::model::held::WORDS;
use crate::model::schedule::Refusal;
use crate::model::writing;
use crate::runs;

/// The members' words, each member changed.
fn changed(words: Words, change: impl Fn(&mut [u32])) -> Vec<u32> {
    let mut words = words.readable().to_vec();
    words.chunks_exact_mut(WORDS).for_each(change);
    words
}

/// Names a group more, where there is a slot for it.
fn name_one_more(member: &mut [u32]) {
    for &count in counts(member[KIND]) {
        if member[count] < GROUPS as u32 {
            member[count] += 1;
        }
    }
}

/// Exchanges the groups of a beam's lists, or their counts as well.
fn exchange_lists(member: &mut [u32], counted: bool) {
    if let &[first, second] = counts(member[KIND]) {
        for place in usize::from(!counted)..=2 * GROUPS {
            member.swap(first + place, second + place);
        }
    }
}

impl Faulty {
    /// What the faulty writer answers.
    pub fn write(&self, words: Words, out: &mut [u8]) -> Result<usize, Refusal> {
        let changed = match self.0 {
            Fault::PastCount => changed(words, name_one_more),
            Fault::Exchanged => changed(words, |member| exchange_lists(member, true)),
            Fault::GroupsExchanged => changed(words, |member| exchange_lists(member, false)),
            Fault::NarrowLength if words.length() > u32::MAX as usize => {
                let length = (words.length() as u32 as usize).min(words.readable().len());
                return writing::write_schedule(words.readable(), length, out);
            }
            _ => return self.write_then(words, out),
        };
        writing::write_schedule(&changed, words.length(), out)
    }

    /// Writes, and then errs.
    fn write_then(&self, words: Words, out: &mut [u8]) -> Result<usize, Refusal> {
        let before = out.to_vec();
        let short = Refusal { question: 13, member: 0 };
        let answer = Model.write_schedule(words, out);
        match (self.0, answer) {
            (Fault::ExactRoom, Ok(length)) if length == out.len() => {
                out.copy_from_slice(&before);
                return Err(short);
            }
            (Fault::ByteBefore13, Err(refusal)) if refusal == short && !out.is_empty() => {
                out[0] ^= 1;
            }
            (Fault::RoomFirst, Err(Refusal { question: 5..=10, member })) => {
                let good = &words.readable()[..WORDS * (member as usize - 1)];
                if Model.write_schedule(good.into(), &mut before.clone()) == Err(short) {
                    return Err(short);
                }
            }
            (Fault::MarksAlone, Err(Refusal { question: 5, member })) => {
                let place = WORDS * (member as usize - 1);
                if (1..=999_999).contains(&words.readable()[place + MARK]) {
                    return self.with_other_marks(words, out);
                }
            }
            (Fault::NoCount, Ok(length)) => {
                let count = if words.length() / WORDS > 127 { 2 } else { 1 };
                out.copy_within(count..length, 0);
                return Ok(length - count);
            }
            (Fault::ReadPastCount, _) if !words.length().is_multiple_of(WORDS) => {
                let place = words.length() / WORDS * WORDS;
                // SAFETY: none where what is left over cannot be read; there it is to fault.
                unsafe { words.start().wrapping_add(place).read_volatile() };
            }
            _ => {}
        }
        self.spoil(answer, out)
    }

    /// Writes the members with rising marks.
    fn with_other_marks(&self, words: Words, out: &mut [u8]) -> Result<usize, Refusal> {
        let mut words = words.readable().to_vec();
        for (member, mark) in words.chunks_exact_mut(WORDS).zip(1..) {
            member[MARK] = mark;
        }
        Model.write_schedule(words.as_slice().into(), out)
    }
}

/// What a run of the writer's lists finds.
fn outcome(fault: Fault) -> Result<(), String> {
    let random = Random::new(3);
    let mut comparison = Comparison::new(Faulty(fault), &random);
    runs::written::lists(&mut comparison, &random, 20)
}

#[test]
fn a_writer_without_fault_passes() {
    assert_eq!(outcome(Fault::None), Ok(()));
}

#[test]
fn faults_of_the_writer_are_noticed() {
    let faults = [
        Fault::PastCount,
        Fault::Exchanged,
        Fault::GroupsExchanged,
        Fault::NarrowLength,
        Fault::ExactRoom,
        Fault::ByteBefore13,
        Fault::RoomFirst,
        Fault::MarksAlone,
        Fault::NoCount,
        Fault::PastText,
        Fault::BufferOnRefusal,
        Fault::OtherMember,
        Fault::OtherText,
    ];
    for fault in faults {
        let difference = outcome(fault).expect_err("a difference");
        assert!(difference.starts_with("words "), "{fault:?}: {difference}");
    }
}
