//! The report's text: question 12, and the two entries that write it.

use super::built::{self, Built, Group};
use super::member::Member;
use super::outcome::Outcome;
use super::schedule::{self, Refusal};

/// No line is longer: a mark, a check's name, four figures, blanks and a newline.
const LONGEST_LINE: usize = 6 + 8 + 4 * 21 + 1;
/// `members 500` and a newline.
const LONGEST_HEADING: usize = 12;

/// Writes bytes into a buffer known to be long enough.
pub(super) struct Writer<'a> {
    out: &'a mut [u8],
    length: usize,
}

impl Writer<'_> {
    #[inline]
    pub(super) fn put(&mut self, bytes: &[u8]) {
        let end = self.length + bytes.len();
        self.out[self.length..end].copy_from_slice(bytes);
        self.length = end;
    }

    #[inline]
    fn number(&mut self, mut value: u64) {
        let mut digits = [0; 20];
        let mut start = digits.len();
        loop {
            start -= 1;
            digits[start] = b'0' + (value % 10) as u8;
            value /= 10;
            if value == 0 {
                break;
            }
        }
        self.put(&digits[start..]);
    }

    /// A member's line: mark, OK or check, four figures.
    fn line(&mut self, mark: u32, outcome: &Outcome) {
        self.number(u64::from(mark));
        self.put(b" ");
        self.put(outcome.failed.map_or("OK", |check| check.name()).as_bytes());
        for &figure in outcome.figures() {
            self.put(b" ");
            self.number(figure);
        }
        for _ in outcome.figures().len()..4 {
            self.put(b" -");
        }
        self.put(b"\n");
    }

    fn report(&mut self, members: &[Member]) {
        self.put(b"members ");
        self.number(members.len() as u64);
        self.put(b"\n");
        for member in members {
            self.line(member.mark, &member.check());
        }
    }
}

/// Writes at most `longest` bytes into `out`, or answers None and leaves `out` alone.
pub(super) fn write_whole(
    out: &mut [u8],
    longest: usize,
    write: impl Fn(&mut Writer),
) -> Option<usize> {
    if out.len() >= longest {
        let mut writer = Writer { out, length: 0 };
        write(&mut writer);
        return Some(writer.length);
    }
    let mut bytes = vec![0; longest];
    let mut writer = Writer { out: &mut bytes, length: 0 };
    write(&mut writer);
    let length = writer.length;
    out.get_mut(..length)?.copy_from_slice(&bytes[..length]);
    Some(length)
}

/// The report of a schedule, written from the buffer's first byte; yields its length.
/// A refusal leaves the buffer as it was.
pub fn report(schedule: &[u8], out: &mut [u8]) -> Result<usize, Refusal> {
    let members = schedule::read(schedule)?;
    let longest = LONGEST_HEADING + members.len() * LONGEST_LINE;
    write_whole(out, longest, |writer| writer.report(&members))
        .ok_or(Refusal { question: 12, member: 0 })
}

/// The line of a built member.
pub fn member_report(
    built: &Built,
    first: &[Group],
    second: &[Group],
    out: &mut [u8],
) -> Result<usize, Refusal> {
    let member = built::read(built, first, second)?;
    write_whole(out, LONGEST_LINE, |writer| writer.line(member.mark, &member.check()))
        .ok_or(Refusal { question: 12, member: 1 })
}

/// What the report program prints of a refusal.
pub fn refusal_text(refusal: Refusal) -> String {
    format!("refused {} member {}\n", refusal.question, refusal.member)
}
