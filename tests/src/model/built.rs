//! A member that a caller built: its fields as numbers, its groups lent beside it.

use super::member::{Bars, Member, No, Numbers, MOST_BARS, MOST_GROUPS};
use super::schedule::Refusal;

#[repr(C)]
#[derive(Clone, Copy, Debug, Default, PartialEq, Eq)]
pub struct Group {
    pub diameter: u32,
    pub bars: u32,
}

/// Places for a member's fields; a kind has at most 22.
pub const FIELDS: usize = 24;

/// Mark, kind, and the kind's fields in document 01's order without the groups.
#[derive(Clone, Copy, Debug, PartialEq, Eq)]
pub struct Built {
    pub mark: u32,
    pub kind: u32,
    pub fields: [u32; FIELDS],
}

/// Hands out a built member's numbers; the lists are taken in order, one at each group count.
struct Lent<'a> {
    built: &'a Built,
    /// Numbers handed out: mark, kind, then fields.
    taken: usize,
    lists: [&'a [Group]; 2],
    lists_taken: usize,
}

impl Numbers for Lent<'_> {
    fn number(&mut self) -> Result<u64, No> {
        let value = match self.taken {
            0 => self.built.mark,
            1 => self.built.kind,
            place => self.built.fields[place - 2],
        };
        self.taken += 1;
        Ok(u64::from(value))
    }

    fn groups(&mut self, least: u64) -> Result<Bars, No> {
        let count = self.within(least, MOST_GROUPS)? as usize;
        let list = self.lists[self.lists_taken];
        self.lists_taken += 1;
        named(list, count)
    }
}

/// The first `count` groups of a lent list (7).
pub(super) fn named(list: &[Group], count: usize) -> Result<Bars, No> {
    let mut bars = Bars::default();
    for group in list.get(..count).ok_or(7u32)? {
        let (diameter, count) = (u64::from(group.diameter), u64::from(group.bars));
        let area = Bars::area_of(diameter)?;
        if !(1..=MOST_BARS).contains(&count) {
            return Err(7);
        }
        bars.add(diameter, area, count);
    }
    Ok(bars)
}

/// Puts questions 5 (range only) to 10 and 14; every refusal names member 1.
pub fn read(built: &Built, first: &[Group], second: &[Group]) -> Result<Member, Refusal> {
    let mut lent = Lent { built, taken: 0, lists: [first, second], lists_taken: 0 };
    Member::read(&mut lent, 0).map_err(|question| Refusal { question, member: 1 })
}

/// The totals of the first `count` groups of a lent list, at most four; a refusal names member 1.
pub fn totals(list: &[Group], count: usize) -> Result<Bars, Refusal> {
    let bars = if count as u64 > MOST_GROUPS { Err(7) } else { named(list, count) };
    bars.map_err(|question| Refusal { question, member: 1 })
}
