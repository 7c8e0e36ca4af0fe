//! What the writer is compared on.

use super::{between, edges_of, Outcome};
use crate::comparison::{Checker, Comparison};
use crate::make::flaws::{flawed, QUESTIONS};
use crate::make::words::{counts, of_record, of_records, GROUPS, KIND};
use crate::make::{self, accepted_list, written, Random, Record};
use crate::model::held::{self, WORDS};
use crate::model::schedule::Refusal;

/// Lists of every sort; `count` of them at random.
pub fn lists<C: Checker>(comparison: &mut Comparison<C>, random: &Random, count: u64) -> Outcome {
    plain_lists(comparison, random)?;
    left_over_words(comparison, random)?;
    too_many_members(comparison, random)?;
    counts_above_four(comparison, random)?;
    flawed_lists(comparison, random)?;
    for _ in 0..count {
        comparison.words(&written::random_list(random))?;
    }
    Ok(())
}

fn records<C: Checker>(
    comparison: &mut Comparison<C>,
    random: &Random,
    records: &[Record],
) -> Outcome {
    comparison.words(&of_records(records, random))
}

/// Each number of groups, the longest members, marks and numbers of each length, and lists of as many
/// members as there may be and a few less.
fn plain_lists<C: Checker>(comparison: &mut Comparison<C>, random: &Random) -> Outcome {
    records(comparison, random, &written::group_counts())?;
    records(comparison, random, &written::load_lengths())?;
    for list in written::number_lengths().into_iter().chain(written::mark_lists(random)) {
        records(comparison, random, &list)?;
    }
    for count in [1, 126, 127, 128, 129, 499, 500] {
        records(comparison, random, &accepted_list(random, count))?;
        for longest in [written::longest_beam, written::longest_member] {
            let longest = (1_000_000 - count as u32..1_000_000).map(longest);
            records(comparison, random, &longest.collect::<Vec<Record>>())?;
        }
    }
    Ok(())
}

/// Up to 41 words after no member and after one or two.
fn left_over_words<C: Checker>(comparison: &mut Comparison<C>, random: &Random) -> Outcome {
    for members in 0..3 {
        let words = of_records(&accepted_list(random, members), random);
        for count in 0..WORDS {
            let mut words = words.clone();
            written::left_over(&mut words, count, random);
            comparison.words(&words)?;
        }
    }
    Ok(())
}

/// Counts for whose groups there are no slots.
fn counts_above_four<C: Checker>(comparison: &mut Comparison<C>, random: &Random) -> Outcome {
    for base in super::bases(random) {
        let words = of_record(&base, random);
        for &count in counts(words[KIND]) {
            for value in [GROUPS as u32 + 1, 255, 256, u32::MAX] {
                let mut words = words.clone();
                words[count] = value;
                comparison.words(&words)?;
            }
        }
    }
    Ok(())
}

/// Numbers of words that make more than 500 members; the low half of some would be accepted.
const TOO_MANY: [usize; 7] = [
    501 * WORDS,
    501 * WORDS + 1,
    600 * WORDS,
    WORDS << 32,
    ((1 << 32) + 1) * WORDS,
    (1 << 32) + WORDS,
    1 << 60,
];

/// 501 members, accepted or not but for their number, and longer lists of which few can be read.
fn too_many_members<C: Checker>(comparison: &mut Comparison<C>, random: &Random) -> Outcome {
    let mut list = accepted_list(random, 501);
    records(comparison, random, &list)?;
    list[0].mark = 0;
    records(comparison, random, &list)?;
    for length in TOO_MANY {
        for members in 0..3 {
            let words = of_records(&accepted_list(random, members), random);
            comparison.lent_words((&words, length))?;
        }
    }
    Ok(())
}

/// A place in a list, and the questions that refuse the member there.
type Flaws<'a> = (usize, &'a [u32]);

/// Five members, like the base at these places, if it can have their flaws.
fn flawed_list(random: &Random, base: &Record, flaws: &[Flaws]) -> Option<Vec<u32>> {
    let mut list = accepted_list(random, 5);
    for (place, _) in flaws {
        list[*place] = base.clone();
    }
    make::renumber(random, &mut list);
    let mut words: Vec<Vec<u32>> = list.iter().map(|record| of_record(record, random)).collect();
    for (place, questions) in flaws {
        words[*place] = flawed(&list[*place], questions, random)?;
    }
    Some(words.concat())
}

/// A list with flaws, which its first one's first question is to refuse.
fn refused<C: Checker>(
    comparison: &mut Comparison<C>,
    random: &Random,
    base: &Record,
    flaws: &[Flaws],
) -> Outcome {
    let Some(words) = flawed_list(random, base, flaws) else {
        return Ok(());
    };
    comparison.words(&words)?;
    let (place, questions) = flaws[0];
    if let [first, second] = *questions {
        comparison.writer_tally.note_flaws(first, second);
    }
    let expected = Refusal { question: questions[0], member: place as u32 + 1 };
    match held::read(&words, words.len()) {
        Err(refusal) if refusal == expected => Ok(()),
        answer => Err(format!("words {words:?}\nmodel: {answer:?}\nnot {expected:?}")),
    }
}

/// Each question's no alone, with another one in the same member, and with one in a later member.
fn flawed_lists<C: Checker>(comparison: &mut Comparison<C>, random: &Random) -> Outcome {
    for base in super::bases(random) {
        for first in QUESTIONS {
            for place in [0, 3] {
                refused(comparison, random, &base, &[(place, &[first])])?;
                for second in QUESTIONS.into_iter().filter(|second| first < *second) {
                    refused(comparison, random, &base, &[(place, &[first, second])])?;
                }
            }
            for second in QUESTIONS {
                refused(comparison, random, &base, &[(1, &[first]), (3, &[second])])?;
            }
        }
    }
    Ok(())
}

/// Values tried in each word of a member.
const TRIED: [u32; 12] = [0, 1, 2, 4, 5, 20, 127, 128, 16_384, 1_000_000, 1_000_000_001, u32::MAX];

/// Each word of a member of each kind replaced, and every field at and outside its range's ends.
pub fn edge_lists<C: Checker>(
    comparison: &mut Comparison<C>,
    random: &Random,
    count: u64,
) -> Outcome {
    for _ in 0..count {
        for base in super::bases(random) {
            let words = of_record(&base, random);
            for place in 0..WORDS {
                for value in TRIED {
                    let mut words = words.clone();
                    words[place] = value;
                    comparison.words(&words)?;
                }
            }
            for edge in edges_of(&base) {
                records(comparison, random, &between(random, edge, &base))?;
            }
        }
    }
    Ok(())
}
