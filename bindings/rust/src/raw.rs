//! The entries of the archive and their structs, as they are.

/// What an answer's `question` holds where no question was answered no; the others are `Question`'s numbers.
pub const ACCEPTED: u32 = 0;

/// Places for a built member's fields; a kind has at most 22.
pub const FIELDS: usize = 24;

/// Slots of a record, and all its words: mark, kind and slots.
pub const SLOTS: usize = 40;
pub const RECORD_WORDS: usize = 42;

/// Bars of one diameter (mm).
#[repr(C)]
#[derive(Clone, Copy, Debug, PartialEq, Eq)]
pub struct Group {
    pub diameter: u32,
    pub bars: u32,
}

/// A built member without its groups; fields in the order of the manual's section 3, those past its kind's have no effect.
#[repr(C)]
#[derive(Clone, Copy, Debug, PartialEq, Eq)]
pub struct Member {
    pub mark: u32,
    pub kind: u32,
    pub fields: [u32; FIELDS],
}

/// A record: a member of a schedule that a caller holds in memory, as words. The slots hold the fields of its kind in a
/// schedule's order, each group as two; every list has room for four. Slots past a count and past the kind's last field have no
/// effect, but `==` compares them, too; `Record::of` leaves them 0.
#[repr(C)]
#[derive(Clone, Copy, Debug, PartialEq, Eq)]
pub struct Record {
    pub mark: u32,
    pub kind: u32,
    pub slots: [u32; SLOTS],
}

/// Question 0: written, with the length of the text or file. Any other: the question answered no, and its member.
#[repr(C)]
#[derive(Clone, Copy, Debug, PartialEq, Eq)]
pub struct Answer {
    pub question: u32,
    pub member: u32,
    pub length: usize,
}

/// A flag is false, and its value 0.0, where the check was not reached or the divisor is 0.
#[repr(C)]
#[derive(Clone, Copy, Debug, PartialEq)]
pub struct Utilization {
    pub first: f64,
    pub second: f64,
    pub third: f64,
    pub fourth: f64,
    pub first_reached: bool,
    pub second_reached: bool,
    pub third_reached: bool,
    pub fourth_reached: bool,
}

/// Question 0: given. Any other: the question answered no, and its member; all else is 0 and false.
#[repr(C)]
#[derive(Clone, Copy, Debug, PartialEq)]
pub struct UtilizationAnswer {
    pub question: u32,
    pub member: u32,
    pub utilization: Utilization,
    pub governs: bool,
    pub governing: f64,
}

/// Question 0: the totals. Any other: the question answered no, and its member; all else is 0.
#[repr(C)]
#[derive(Clone, Copy, Debug, PartialEq, Eq)]
pub struct BarTotalsAnswer {
    pub question: u32,
    pub member: u32,
    pub bars: u64,
    pub area: u64,
    pub diameters: u64,
    pub squares: u64,
}

// The layout of each struct, as the library has it. It is part of the binary interface: this version keeps it.
const _: () = {
    use std::mem::{align_of, offset_of, size_of};
    assert!(size_of::<Group>() == 8);
    assert!(offset_of!(Group, bars) == 4);
    assert!(size_of::<Member>() == 104);
    assert!(offset_of!(Member, kind) == 4);
    assert!(offset_of!(Member, fields) == 8);
    assert!(size_of::<Record>() == 4 * RECORD_WORDS);
    assert!(align_of::<Record>() == align_of::<u32>());
    assert!(offset_of!(Record, kind) == 4);
    assert!(offset_of!(Record, slots) == 8);
    assert!(size_of::<Answer>() == 16);
    assert!(offset_of!(Answer, member) == 4);
    assert!(offset_of!(Answer, length) == 8);
    assert!(size_of::<Utilization>() == 40);
    assert!(offset_of!(Utilization, second) == 8);
    assert!(offset_of!(Utilization, third) == 16);
    assert!(offset_of!(Utilization, fourth) == 24);
    assert!(offset_of!(Utilization, first_reached) == 32);
    assert!(offset_of!(Utilization, second_reached) == 33);
    assert!(offset_of!(Utilization, third_reached) == 34);
    assert!(offset_of!(Utilization, fourth_reached) == 35);
    assert!(size_of::<UtilizationAnswer>() == 64);
    assert!(offset_of!(UtilizationAnswer, member) == 4);
    assert!(offset_of!(UtilizationAnswer, utilization) == 8);
    assert!(offset_of!(UtilizationAnswer, governs) == 48);
    assert!(offset_of!(UtilizationAnswer, governing) == 56);
    assert!(size_of::<BarTotalsAnswer>() == 40);
    assert!(offset_of!(BarTotalsAnswer, member) == 4);
    assert!(offset_of!(BarTotalsAnswer, bars) == 8);
    assert!(offset_of!(BarTotalsAnswer, area) == 16);
    assert!(offset_of!(BarTotalsAnswer, diameters) == 24);
    assert!(offset_of!(BarTotalsAnswer, squares) == 32);
};

extern "C" {
    pub fn koxaltes_report(
        schedule: *const u8,
        schedule_length: usize,
        out: *mut u8,
        out_length: usize,
    ) -> Answer;

    pub fn koxaltes_member_report(
        member: Member,
        first: *const Group,
        first_length: usize,
        second: *const Group,
        second_length: usize,
        out: *mut u8,
        out_length: usize,
    ) -> Answer;

    pub fn koxaltes_member_utilization(
        member: Member,
        first: *const Group,
        first_length: usize,
        second: *const Group,
        second_length: usize,
    ) -> UtilizationAnswer;

    pub fn koxaltes_bar_totals(
        groups: *const Group,
        groups_length: usize,
        count: usize,
    ) -> BarTotalsAnswer;

    pub fn koxaltes_write_schedule(
        words: *const u32,
        word_count: usize,
        out: *mut u8,
        out_length: usize,
    ) -> Answer;
}
