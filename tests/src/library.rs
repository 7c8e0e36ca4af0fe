//! The static library's C interface.

use crate::guard::{List, Words};
use crate::model::built::{Built, FIELDS};
use crate::model::member::Bars;
use crate::model::schedule::Refusal;
use crate::model::utilization::Shares;

#[repr(C)]
#[derive(Clone, Copy)]
struct CGroup {
    diameter: u32,
    bars: u32,
}

#[repr(C)]
#[derive(Clone, Copy)]
struct CMember {
    mark: u32,
    kind: u32,
    fields: [u32; FIELDS],
}

#[repr(C)]
#[derive(Clone, Copy, Debug)]
struct CAnswer {
    question: u32,
    member: u32,
    length: usize,
}

#[repr(C)]
#[derive(Clone, Copy, Debug)]
struct CUtilization {
    first: f64,
    second: f64,
    third: f64,
    fourth: f64,
    first_reached: bool,
    second_reached: bool,
    third_reached: bool,
    fourth_reached: bool,
}

#[repr(C)]
#[derive(Clone, Copy, Debug)]
struct CUtilizationAnswer {
    question: u32,
    member: u32,
    utilization: CUtilization,
    governs: bool,
    governing: f64,
}

/// The totals of a list, or its refusal; compared as it is.
#[repr(C)]
#[derive(Clone, Copy, Debug, PartialEq, Eq)]
pub struct BarTotals {
    pub question: u32,
    pub member: u32,
    pub bars: u64,
    pub area: u64,
    pub diameters: u64,
    pub squares: u64,
}

extern "C" {
    fn koxaltes_report(src: *const u8, n: usize, out: *mut u8, room: usize) -> CAnswer;
    fn koxaltes_member_report(
        x: CMember,
        first: *const CGroup,
        n1: usize,
        second: *const CGroup,
        n2: usize,
        out: *mut u8,
        room: usize,
    ) -> CAnswer;
    fn koxaltes_member_utilization(
        x: CMember,
        first: *const CGroup,
        n1: usize,
        second: *const CGroup,
        n2: usize,
    ) -> CUtilizationAnswer;
    fn koxaltes_bar_totals(groups: *const CGroup, n: usize, count: usize) -> BarTotals;
    fn koxaltes_write_schedule(words: *const u32, n: usize, out: *mut u8, room: usize) -> CAnswer;
}

fn member(built: &Built) -> CMember {
    CMember { mark: built.mark, kind: built.kind, fields: built.fields }
}

/// A list of groups as the library takes it; both records are two 32-bit numbers.
fn list(groups: List) -> (*const CGroup, usize) {
    (groups.start().cast(), groups.length())
}

/// The length of what was written, or the refusal. A refusal has length 0, an answer no member.
fn answer(answer: CAnswer) -> Result<usize, Refusal> {
    if answer.question == 0 {
        assert_eq!(answer.member, 0, "an answer names no member");
        Ok(answer.length)
    } else {
        assert_eq!(answer.length, 0, "a refusal has no length");
        Err(Refusal { question: answer.question, member: answer.member })
    }
}

/// The report of a schedule.
pub fn report(schedule: &[u8], out: &mut [u8]) -> Result<usize, Refusal> {
    // SAFETY: both areas are valid for their lengths and do not overlap.
    answer(unsafe {
        koxaltes_report(schedule.as_ptr(), schedule.len(), out.as_mut_ptr(), out.len())
    })
}

/// The line of a built member.
pub fn member_report(
    built: &Built,
    first: List,
    second: List,
    out: &mut [u8],
) -> Result<usize, Refusal> {
    let ((first, n1), (second, n2)) = (list(first), list(second));
    // SAFETY: the areas are valid for their lengths, save what is not to be read of a list; `out`
    // overlaps none of them.
    answer(unsafe {
        koxaltes_member_report(member(built), first, n1, second, n2, out.as_mut_ptr(), out.len())
    })
}

/// A record of the library's utilization answer as numbers: doubles by their bits.
#[derive(Clone, Debug, PartialEq, Eq)]
pub struct Utilization {
    pub question: u32,
    pub member: u32,
    pub shares: [u64; 4],
    pub reached: [bool; 4],
    pub governs: bool,
    pub governing: u64,
}

impl Utilization {
    /// The answer that the model gives.
    pub fn expected(answer: Result<Shares, Refusal>) -> Self {
        let (refusal, shares) = match answer {
            Ok(shares) => (Refusal { question: 0, member: 0 }, shares),
            Err(refusal) => (refusal, [None; 4]),
        };
        let governing = crate::model::utilization::governing(&shares);
        Utilization {
            question: refusal.question,
            member: refusal.member,
            shares: shares.map(|share| share.unwrap_or(0.0).to_bits()),
            reached: shares.map(|share| share.is_some()),
            governs: governing.is_some(),
            governing: governing.unwrap_or(0.0).to_bits(),
        }
    }
}

/// The shares of a built member.
pub fn member_utilization(built: &Built, first: List, second: List) -> Utilization {
    let ((first, n1), (second, n2)) = (list(first), list(second));
    // SAFETY: the lists are valid for their lengths, save what is not to be read of them.
    let answer = unsafe { koxaltes_member_utilization(member(built), first, n1, second, n2) };
    let shares = answer.utilization;
    Utilization {
        question: answer.question,
        member: answer.member,
        shares: [shares.first, shares.second, shares.third, shares.fourth].map(f64::to_bits),
        reached: [
            shares.first_reached,
            shares.second_reached,
            shares.third_reached,
            shares.fourth_reached,
        ],
        governs: answer.governs,
        governing: answer.governing.to_bits(),
    }
}

impl BarTotals {
    /// The answer that the model gives.
    pub fn expected(answer: Result<Bars, Refusal>) -> Self {
        let (refusal, bars) = match answer {
            Ok(bars) => (Refusal { question: 0, member: 0 }, bars),
            Err(refusal) => (refusal, Bars::default()),
        };
        BarTotals {
            question: refusal.question,
            member: refusal.member,
            bars: u64::from(bars.count),
            area: bars.area,
            diameters: bars.diameters,
            squares: bars.squares,
        }
    }
}

/// The totals of the first `count` groups of a list.
pub fn bar_totals(groups: List, count: usize) -> BarTotals {
    let (groups, n) = list(groups);
    // SAFETY: the list is valid for its length, save what is not to be read of it.
    unsafe { koxaltes_bar_totals(groups, n, count) }
}

/// The schedule of members held as words.
pub fn write_schedule(words: Words, out: &mut [u8]) -> Result<usize, Refusal> {
    let (start, n) = (words.start(), words.length());
    // SAFETY: the areas are valid for their lengths, save what is not to be read of the words; `out`
    // overlaps none of them.
    answer(unsafe { koxaltes_write_schedule(start, n, out.as_mut_ptr(), out.len()) })
}
