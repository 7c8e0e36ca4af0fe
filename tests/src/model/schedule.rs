//! Reading a schedule: questions 1 to 11 and 14.

use super::member::{Bars, Member, No, Numbers, MOST_BARS, MOST_GROUPS};

/// A question answered no, and the member that it names.
#[derive(Clone, Copy, Debug, PartialEq, Eq)]
pub struct Refusal {
    pub question: u32,
    pub member: u32,
}

pub const MOST_BYTES: usize = 60_000;
pub const MOST_MEMBERS: u64 = 500;

/// The bytes of a schedule not yet read.
struct Reader<'a> {
    rest: &'a [u8],
}

impl Numbers for Reader<'_> {
    /// Groups of seven bits, lowest first, at most five (2, 3).
    #[inline]
    fn number(&mut self) -> Result<u64, No> {
        let mut value = 0;
        for place in 0..5 {
            let (&byte, rest) = self.rest.split_first().ok_or(2u32)?;
            self.rest = rest;
            value |= u64::from(byte & 0x7f) << (7 * place);
            if byte & 0x80 == 0 {
                let padded = place > 0 && byte == 0;
                let large = value > u64::from(u32::MAX);
                return if padded || large { Err(3) } else { Ok(value) };
            }
        }
        Err(3)
    }

    fn groups(&mut self, least: u64) -> Result<Bars, No> {
        let mut bars = Bars::default();
        for _ in 0..self.within(least, MOST_GROUPS)? {
            let diameter = self.number()?;
            let area = Bars::area_of(diameter)?;
            bars.add(diameter, area, self.within(1, MOST_BARS)?);
        }
        Ok(bars)
    }
}

/// Reads a whole schedule.
pub fn read(bytes: &[u8]) -> Result<Vec<Member>, Refusal> {
    let refuse = |question, member| Refusal { question, member };
    if bytes.len() > MOST_BYTES {
        return Err(refuse(1, 0));
    }
    let mut reader = Reader { rest: bytes };
    let count = reader.number().map_err(|question| refuse(question, 0))?;
    if count > MOST_MEMBERS {
        return Err(refuse(4, 0));
    }
    let mut members = Vec::with_capacity(count as usize);
    let mut before = 0;
    for place in 1..=count as u32 {
        let member =
            Member::read(&mut reader, before).map_err(|question| refuse(question, place))?;
        before = member.mark;
        members.push(member);
    }
    if !reader.rest.is_empty() {
        return Err(refuse(11, 0));
    }
    Ok(members)
}
