//! Lists of members as the bytes of their words, for the vectors of written schedules.

use super::written;
use crate::make::flaws::{flawed, QUESTIONS};
use crate::make::words::{of_record, of_records};
use crate::make::written::{group_counts, left_over, load_lengths, mark_lists, number_lengths};
use crate::make::{Random, Record};
use crate::model::held::WORDS;

/// Words as bytes, four to a word, low byte first.
fn bytes(words: &[u32]) -> Vec<u8> {
    words.iter().flat_map(|word| word.to_le_bytes()).collect()
}

/// Words that make no member, after no member and after one.
fn with_words_left_over(member: &Record, random: &Random) -> Vec<Vec<u32>> {
    let mut lists = Vec::new();
    for list in [vec![], of_record(member, random)] {
        for count in [1, WORDS - 1] {
            let mut words = list.clone();
            left_over(&mut words, count, random);
            lists.push(words);
        }
    }
    lists
}

/// Bytes that make no word, after no member, after one, and where a member lacks only them.
fn with_bytes_left_over(member: &Record, random: &Random) -> Vec<Vec<u8>> {
    let member = bytes(&of_record(member, random));
    vec![vec![1; 3], [member.clone(), vec![1]].concat(), member[..4 * WORDS - 1].to_vec()]
}

/// A member, and one of this kind that is refused by this question.
fn refused_by(question: u32, kind: u32, members: &[Record], random: &Random) -> Option<Vec<u32>> {
    let expected = format!("refused {question} member 2\n").into_bytes();
    members.windows(2).filter(|pair| pair[1].kind == kind).find_map(|pair| {
        let second = flawed(&pair[1], &[question], random)?;
        let words = [of_record(&pair[0], random), second].concat();
        (written(&bytes(&words)) == expected).then_some(words)
    })
}

/// A list for each question that a kind can be refused by. Columns and meshes have no questions 10 and
/// 14, meshes no question 9; question 4 takes more bytes than a vector's length can say.
fn refused(members: &[Record], random: &Random) -> Vec<Vec<u32>> {
    let mut lists = Vec::new();
    for question in QUESTIONS {
        let kinds: &[u32] = match question {
            9 => &[1, 2, 4],
            10 | 14 => &[1, 4],
            _ => &[1, 2, 3, 4],
        };
        for kind in kinds {
            let list = refused_by(question, *kind, members, random);
            lists.push(list.expect("a member of this kind that can be refused so"));
        }
    }
    lists
}

/// All of these members.
pub fn together(members: &[Record], random: &Random) -> Vec<u8> {
    bytes(&of_records(members, random))
}

/// Each member alone, all of them, none; each number of groups and of a number's bytes; marks that
/// rise or not; refused ones; words and bytes left over.
pub fn lists(members: &[Record], random: &Random) -> Vec<Vec<u8>> {
    let mut lists: Vec<Vec<u32>> = members.iter().map(|one| of_record(one, random)).collect();
    lists.push(of_records(members, random));
    lists.push(vec![]);
    lists.push(of_records(&group_counts(), random));
    lists.push(of_records(&load_lengths(), random));
    for records in number_lengths().iter().chain(&mark_lists(random)) {
        lists.push(of_records(records, random));
    }
    lists.extend(refused(members, random));
    lists.extend(with_words_left_over(&members[0], random));
    let mut lists: Vec<Vec<u8>> = lists.iter().map(|words| bytes(words)).collect();
    lists.extend(with_bytes_left_over(&members[0], random));
    lists
}
