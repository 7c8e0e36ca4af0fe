//! Members that a caller holds as words: 42 to a member.

use super::built::{self, Group};
use super::member::{Bars, Member, No, Numbers, MOST_GROUPS};
use super::schedule::{Refusal, MOST_MEMBERS};

/// Words of a member: mark, kind and 40 slots.
pub const WORDS: usize = 42;
/// Slots of a list's groups, after its count.
const LIST: usize = 2 * MOST_GROUPS as usize;

/// A member, and the groups that its counts name: of each its diameter and bars. The checks know
/// only sums over them.
#[derive(Clone, Copy, Debug, PartialEq, Eq)]
pub struct Held<'a> {
    pub member: Member,
    pub lists: [&'a [u32]; 2],
}

/// Hands out a member's words; every list takes all its slots.
struct Slots<'a> {
    rest: &'a [u32],
    lists: [&'a [u32]; 2],
    lists_taken: usize,
}

impl Numbers for Slots<'_> {
    #[inline]
    fn number(&mut self) -> Result<u64, No> {
        let (&word, rest) = self.rest.split_first().expect("a slot for each field");
        self.rest = rest;
        Ok(u64::from(word))
    }

    fn groups(&mut self, least: u64) -> Result<Bars, No> {
        let count = self.within(least, MOST_GROUPS)? as usize;
        let (list, rest) = self.rest.split_at(LIST);
        self.rest = rest;
        self.lists[self.lists_taken] = &list[..2 * count];
        self.lists_taken += 1;
        let groups: [Group; MOST_GROUPS as usize] =
            std::array::from_fn(|at| Group { diameter: list[2 * at], bars: list[2 * at + 1] });
        built::named(&groups, count)
    }
}

/// Reads `length` lent words, of which these can be read: questions 4 to 10 and 14. Words left over
/// after the last whole member need not be there, and where there are too many members none need be.
pub fn read(words: &[u32], length: usize) -> Result<Vec<Held<'_>>, Refusal> {
    let count = length / WORDS;
    if count as u64 > MOST_MEMBERS {
        return Err(Refusal { question: 4, member: 0 });
    }
    let mut members = Vec::with_capacity(count);
    let mut before = 0;
    for (rest, place) in words[..count * WORDS].chunks_exact(WORDS).zip(1..) {
        let mut slots = Slots { rest, lists: [&[]; 2], lists_taken: 0 };
        let member = Member::read(&mut slots, before)
            .map_err(|question| Refusal { question, member: place })?;
        before = member.mark;
        members.push(Held { member, lists: slots.lists });
    }
    Ok(members)
}
