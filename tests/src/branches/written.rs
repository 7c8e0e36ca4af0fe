//! Which cases of the writer the compared lists of members reached.

use super::{Case, Tally};
use crate::make::flaws::QUESTIONS;
use crate::make::words::{counts, end, GROUPS, KIND, LOAD, MARK, SPAN};
use crate::make::written::{promised, LONGEST_BEAM, LONGEST_MEMBER};
use crate::make::{decode, encode};
use crate::model::held::{self, WORDS};
use crate::model::schedule::{Refusal, MOST_MEMBERS};

const MEMBERS: &str = "members written";
const LEFT_OVER: &str = "words left over";
const KINDS: &str = "kind written";
const FAILED: &str = "kind written though it fails a check";
const TENSION: &str = "tension groups written";
const COMPRESSION: &str = "compression groups written";
const COLUMN: &str = "column groups written";
const POINT_TENSION: &str = "tension groups written, kind 4";
const POINT_COMPRESSION: &str = "compression groups written, kind 4";
const PAST_TENSION: &str = "junk after tension groups";
const PAST_COMPRESSION: &str = "junk after compression groups";
const PAST_COLUMN: &str = "junk after column groups";
const PAST_POINT_TENSION: &str = "junk after tension groups, kind 4";
const PAST_POINT_COMPRESSION: &str = "junk after compression groups, kind 4";
const PAST_FIELDS: &str = "junk after the fields of kind";
const LOAD_OF_1: &str = "kind 1, a (0 to l0, 1 above, 2 above 12000)";
const LOAD_BYTES: &str = "bytes of a";
const LONGEST: &str = "longest member, bytes";
const NUMBER: &str = "bytes of a number";
const MARK_BYTES: &str = "bytes of a mark";
const ROOM: &str = "room (0 none, 1 one short, 2 exact, 3 more)";
const PROMISED: &str = "room 2 + 61 n, shorter file, n";
const ONE_LESS: &str = "room 2 + 61 n - 1, shorter file, n";
const NO_ROOM: &str = "no room, and no to";
const TOO_MANY: &str = "4 (1 by one, 2 by 2^32 or more)";
const MARK_REFUSED: &str = "5 (0 zero, 1 large, 2 as before, 3 falls)";
const ABOVE_FOUR: &str = "7, count above 4 (10 kind + list)";
const POINT_REFUSED: &str = "kind 4, no to";
const UNKNOWN: &str = "6, kind";
const FIRST: &str = "first member, no to";
const LATER: &str = "later member, no to";
const TWO_MEMBERS: &str = "no, and a later member's (100 q + q)";
const TWO_FLAWS: &str = "no, and another of the member (100 q + q)";

/// Numbers of members to be written.
const COUNTS: [u64; 6] = [0, 1, 127, 128, 499, 500];

impl Tally {
    /// Notes the cases of words of which these can be read; `file` is what they become.
    pub fn note_list(&mut self, (words, length): (&[u32], usize), file: &Result<Vec<u8>, Refusal>) {
        let members = length / WORDS;
        match file {
            Ok(file) => {
                self.add_if(COUNTS.contains(&(members as u64)), MEMBERS, members as u64);
                self.add(LEFT_OVER, (length % WORDS) as u64);
                words.chunks_exact(WORDS).for_each(|member| self.member_written(member));
                self.checks_failed(words, length);
                self.file(file);
            }
            Err(Refusal { question: 4, .. }) => {
                self.add_if(members as u64 == MOST_MEMBERS + 1, TOO_MANY, 1);
                self.add_if(members > u32::MAX as usize, TOO_MANY, 2);
            }
            Err(refusal) => self.member_refused(&words[..members * WORDS], *refusal),
        }
    }

    /// What an accepted member has, and that there is junk where nothing has an effect.
    fn member_written(&mut self, words: &[u32]) {
        let kind = words[KIND];
        let is_junk = |slots: &[u32]| slots.iter().any(|&word| word != 0);
        self.add(KINDS, u64::from(kind));
        let names = match kind {
            1 => [(TENSION, PAST_TENSION), (COMPRESSION, PAST_COMPRESSION)],
            4 => [(POINT_TENSION, PAST_POINT_TENSION), (POINT_COMPRESSION, PAST_POINT_COMPRESSION)],
            _ => [(COLUMN, PAST_COLUMN); 2],
        };
        for (&count, (groups, past)) in counts(kind).iter().zip(names) {
            let list = &words[count + 1..][..2 * GROUPS];
            let named = words[count];
            self.add(groups, u64::from(named));
            self.add_if(is_junk(&list[2 * named as usize..]), past, u64::from(named));
        }
        self.add_if(is_junk(&words[end(kind)..]), PAST_FIELDS, u64::from(kind));
        let place = u64::from(words[LOAD] > words[SPAN]) + u64::from(words[LOAD] > 12_000);
        self.add_if(kind == 1, LOAD_OF_1, place);
    }

    /// Members that fail a check: the writer puts none.
    fn checks_failed(&mut self, words: &[u32], length: usize) {
        for held in held::read(words, length).expect("an accepted list") {
            self.add_if(held.member.check().failed.is_some(), FAILED, held.member.kind());
        }
    }

    /// How long the numbers and members of a schedule are.
    fn file(&mut self, file: &[u8]) {
        for record in decode(file) {
            let kind = record.kind;
            let bytes = encode(&[record]);
            let mut numbers = bytes[1..].split_inclusive(|byte| *byte < 0x80);
            let mark = numbers.next().expect("a mark");
            self.add(MARK_BYTES, mark.len() as u64);
            let mut last = mark;
            for number in numbers {
                self.add(NUMBER, number.len() as u64);
                last = number;
            }
            self.add_if(kind == 4, LOAD_BYTES, last.len() as u64);
            let length = bytes.len() - 1;
            self.add_if(kind == 1 && length == LONGEST_BEAM, LONGEST, length as u64);
            self.add_if(length == LONGEST_MEMBER, LONGEST, length as u64);
        }
    }

    /// The question and place of a member's refusal, and whether a later member has its own.
    fn member_refused(&mut self, words: &[u32], refusal: Refusal) {
        let question = u64::from(refusal.question);
        let (before, rest) = words.split_at(WORDS * (refusal.member as usize - 1));
        self.add(if before.is_empty() { FIRST } else { LATER }, question);
        self.add_if(rest[KIND] == 4, POINT_REFUSED, question);
        self.add_if(question == 6 && rest[KIND] < 10, UNKNOWN, u64::from(rest[KIND]));
        if question == 5 {
            let mark = rest[MARK];
            let last = before.chunks_exact(WORDS).last().map_or(0, |member| member[MARK]);
            let variant = match mark {
                0 => 0,
                1_000_000.. => 1,
                mark if mark == last => 2,
                _ => 3,
            };
            self.add(MARK_REFUSED, variant);
        }
        if question == 7 {
            self.counts_above_four(rest);
        }
        let later = &rest[WORDS..];
        if let Err(other) = held::read(later, later.len()) {
            self.add(TWO_MEMBERS, 100 * question + u64::from(other.question));
        }
    }

    /// Which counts of a member have no slots for their groups.
    fn counts_above_four(&mut self, words: &[u32]) {
        let kind = words[KIND];
        for (&count, list) in counts(kind).iter().zip(1..) {
            self.add_if(words[count] > GROUPS as u32, ABOVE_FOUR, 10 * u64::from(kind) + list);
        }
    }

    /// Notes the cases of a buffer's length; `file` is what this many members become.
    pub fn note_room(&mut self, room: usize, members: usize, file: &Result<Vec<u8>, Refusal>) {
        match file {
            Ok(file) => {
                self.add_if(room == 0, ROOM, 0);
                self.add_if(room + 1 == file.len(), ROOM, 1);
                self.add_if(room == file.len(), ROOM, 2);
                self.add_if(room > file.len(), ROOM, 3);
                self.promised_room(room, members, file.len());
            }
            Err(refusal) => self.add_if(room == 0, NO_ROOM, u64::from(refusal.question)),
        }
    }

    /// The length that is promised to be enough, and one byte less, for a shorter schedule.
    fn promised_room(&mut self, room: usize, members: usize, length: usize) {
        let (promised, count) = (promised(members), members as u64);
        if length < promised && COUNTS.contains(&count) {
            self.add_if(room == promised, PROMISED, count);
            self.add_if(room + 1 == promised, ONE_LESS, count);
        }
    }

    /// Notes a member that two questions would refuse, the first of which does.
    pub fn note_flaws(&mut self, first: u32, second: u32) {
        self.add(TWO_FLAWS, u64::from(100 * first + second));
    }
}

/// Each question with each, as 100 q + q.
fn pairs(wanted: impl Fn(u32, u32) -> bool) -> Vec<u64> {
    let pairs = QUESTIONS.into_iter().flat_map(|first| QUESTIONS.map(|second| (first, second)));
    let pairs = pairs.filter(|&(first, second)| wanted(first, second));
    pairs.map(|(first, second)| u64::from(100 * first + second)).collect()
}

/// Every case of the writer that a comparison is to reach.
pub fn required_of_writer() -> Vec<Case> {
    let mut cases = Vec::new();
    let mut put = |about, variants: &[u64]| {
        cases.extend(variants.iter().map(|&variant| (about, variant)));
    };
    put(MEMBERS, &COUNTS);
    put(LEFT_OVER, &(0..WORDS as u64).collect::<Vec<u64>>());
    put(KINDS, &[1, 2, 3, 4]);
    put(FAILED, &[1, 2, 3, 4]);
    for about in [TENSION, POINT_TENSION, COLUMN] {
        put(about, &[1, 2, 3, 4]);
    }
    for about in [COMPRESSION, POINT_COMPRESSION] {
        put(about, &[0, 1, 2, 3, 4]);
    }
    for about in [PAST_TENSION, PAST_POINT_TENSION, PAST_COLUMN] {
        put(about, &[1, 2, 3]);
    }
    for about in [PAST_COMPRESSION, PAST_POINT_COMPRESSION] {
        put(about, &[0, 1, 2, 3]);
    }
    put(PAST_FIELDS, &[1, 2, 3, 4]);
    put(LOAD_OF_1, &[0, 1, 2]);
    put(LOAD_BYTES, &[1, 2]);
    put(LONGEST, &[LONGEST_BEAM as u64, LONGEST_MEMBER as u64]);
    put(NUMBER, &[1, 2, 3, 4, 5]);
    put(MARK_BYTES, &[1, 2, 3]);
    put(ROOM, &[0, 1, 2, 3]);
    put(PROMISED, &COUNTS);
    put(ONE_LESS, &COUNTS);
    put(NO_ROOM, &[4, 5, 6, 7, 8, 9, 10, 14]);
    put(TOO_MANY, &[1, 2]);
    put(MARK_REFUSED, &[0, 1, 2, 3]);
    put(ABOVE_FOUR, &[11, 12, 21, 41, 42]);
    put(POINT_REFUSED, &[5, 7, 8, 9, 10, 14]);
    put(UNKNOWN, &[0, 5]);
    put(FIRST, &QUESTIONS.map(u64::from));
    put(LATER, &QUESTIONS.map(u64::from));
    put(TWO_MEMBERS, &pairs(|_, _| true));
    put(TWO_FLAWS, &pairs(|first, second| first < second));
    cases
}
