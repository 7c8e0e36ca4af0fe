//! What question 14 is compared on: Mq at most M (document 02, wish 5).

use super::{answered, bases, refused, Outcome};
use crate::comparison::{Checker, Comparison};
use crate::make::flaws::{flaw, QUESTIONS};
use crate::make::words::of_records;
use crate::make::{self, encode, moments, Random, Record};
use crate::model::held;
use crate::model::schedule::Refusal;

/// Beams of both kinds in every entry, written out and `count` times at random.
pub fn moments<C: Checker>(comparison: &mut Comparison<C>, random: &Random, count: u64) -> Outcome {
    for record in moments::beams() {
        around_design(comparison, random, &record)?;
    }
    for (file, expected) in moments::refused_files() {
        refused(comparison, &file, expected)?;
        comparison.tally.note_file_of_moments(expected);
    }
    for _ in 0..count {
        let (beams, others): (Vec<Record>, Vec<Record>) =
            bases(random).into_iter().partition(Record::is_beam);
        for beam in &beams {
            around_design(comparison, random, beam)?;
            earlier_questions(comparison, random, beam)?;
            two_members(comparison, random, beam, &others)?;
        }
    }
    Ok(())
}

/// The beam with Mq around its M and at the ends of the range.
fn around_design<C: Checker>(
    comparison: &mut Comparison<C>,
    random: &Random,
    base: &Record,
) -> Outcome {
    for (record, expected) in moments::around_design(base) {
        answered(comparison, random, &record, expected)?;
        comparison.tally.note_moments(&record);
    }
    Ok(())
}

/// The beam with a no to 14 and to a question before it.
fn earlier_questions<C: Checker>(
    comparison: &mut Comparison<C>,
    random: &Random,
    base: &Record,
) -> Outcome {
    for question in QUESTIONS.into_iter().filter(|question| *question < 14) {
        let mut record = base.clone();
        if flaw(&mut record, 14, random) && flaw(&mut record, question, random) {
            answered(comparison, random, &record, question)?;
            comparison.tally.note_earlier_question(base.kind, question);
        }
    }
    Ok(())
}

/// The beam's no to 14 before and after another beam's no, in a file and as words, with a column and a
/// mesh beside them.
fn two_members<C: Checker>(
    comparison: &mut Comparison<C>,
    random: &Random,
    beam: &Record,
    others: &[Record],
) -> Outcome {
    for other in QUESTIONS {
        for [first, second] in [[14, other], [other, 14]] {
            let mut records = [&others[0], beam, &others[1], beam].map(Record::clone);
            make::renumber(random, &mut records);
            if flaw(&mut records[1], first, random) && flaw(&mut records[3], second, random) {
                let expected = Refusal { question: first, member: 2 };
                refused(comparison, &encode(&records), expected)?;
                refused_words(comparison, &of_records(&records, random), expected)?;
                comparison.tally.note_two_members(first, second);
            }
        }
    }
    Ok(())
}

/// Words that are to be refused so.
fn refused_words<C: Checker>(
    comparison: &mut Comparison<C>,
    words: &[u32],
    expected: Refusal,
) -> Outcome {
    comparison.words(words)?;
    match held::read(words, words.len()) {
        Err(refusal) if refusal == expected => Ok(()),
        answer => Err(format!("words {words:?}\nmodel: {answer:?}, not {expected:?}")),
    }
}
