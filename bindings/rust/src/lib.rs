//! Koxaltes, a proved checker of reinforcement schedules, for Rust callers. The manual is `docs/MANUAL.md`.
//!
//! Every function takes any input. What the library's entries yield is proved: `crates/koxaltes/src/lib.rt` has the contracts.
//! This wrapper is written by hand, and so is how it makes members and records of named fields. It links a static library for
//! x86-64 Linux (System V AMD64 calling convention).
//!
//! `Ok` says that the input was accepted. It does not say that a member's line says OK: read the line.

pub mod raw;
#[cfg(test)]
mod tests;

pub use raw::{Group, Member, Record, FIELDS, RECORD_WORDS, SLOTS};

/// The version of the interface, the same as in `bindings/c/koxaltes.h`, which says what a change of each part means.
pub const VERSION: &str = env!("CARGO_PKG_VERSION");

/// The longest schedule that is not refused for its size alone (question 1), in bytes.
pub const LONGEST_SCHEDULE: usize = 60_000;
/// The longest schedule that is written, in bytes.
pub const LONGEST_FILE: usize = 30_502;
/// The longest report, and the longest line of one member, in bytes.
pub const LONGEST_REPORT: usize = 27_555;
pub const LONGEST_LINE: usize = 55;
/// The most members of a schedule, and the most groups of one list.
pub const MOST_MEMBERS: usize = 500;
pub const MOST_GROUPS: usize = 4;

/// The kinds of members, by their numbers. A point-loaded beam is a beam with one field more; what is said of beams holds of
/// it, too.
#[repr(u32)]
#[derive(Clone, Copy, Debug, PartialEq, Eq)]
#[non_exhaustive]
pub enum Kind {
    Beam = 1,
    Column = 2,
    Mesh = 3,
    PointLoadedBeam = 4,
}

/// The questions, by their numbers. Each says what is so where it is answered no.
#[repr(u32)]
#[derive(Clone, Copy, Debug, PartialEq, Eq)]
#[non_exhaustive]
pub enum Question {
    /// The schedule has more than 60,000 bytes.
    Size = 1,
    /// The schedule ends inside a number, or where one is due.
    NumberEnds = 2,
    /// A number of more than five bytes, of 2^32 or more, or not in its shortest form.
    NumberForm = 3,
    /// More than 500 members.
    Count = 4,
    /// A mark out of range, or not above the one before it.
    Mark = 5,
    /// An unknown kind.
    Kind = 6,
    /// A field or a group out of range; a count above the length of its list.
    Field = 7,
    /// Fields that do not fit together.
    Consistency = 8,
    /// More than 40 bars on a face of a beam, or in a column.
    Bars = 9,
    /// More than 4 percent of tension steel in a beam.
    Ratio = 10,
    /// Bytes after the last member.
    Trailing = 11,
    /// The text is longer than the buffer.
    Buffer = 12,
    /// The written file is longer than the buffer.
    File = 13,
    /// Mq above M in a beam.
    ServiceMoment = 14,
}

impl Question {
    /// The question of a number; none for 0 and for a number that this version does not know.
    pub fn of(number: u32) -> Option<Question> {
        Some(match number {
            1 => Question::Size,
            2 => Question::NumberEnds,
            3 => Question::NumberForm,
            4 => Question::Count,
            5 => Question::Mark,
            6 => Question::Kind,
            7 => Question::Field,
            8 => Question::Consistency,
            9 => Question::Bars,
            10 => Question::Ratio,
            11 => Question::Trailing,
            12 => Question::Buffer,
            13 => Question::File,
            14 => Question::ServiceMoment,
            _ => return None,
        })
    }
}

/// The number of the question answered no, and the member it names.
#[derive(Clone, Copy, Debug, PartialEq, Eq)]
pub struct Refusal {
    pub question: u32,
    pub member: u32,
}

impl Refusal {
    /// The question by its name.
    pub fn named(&self) -> Option<Question> {
        Question::of(self.question)
    }
}

/// Beams: moment, shear, width, deflection; columns: axial force first; meshes: anchorage, lap.
/// Each is at most 1.0 exactly where its check holds; `None` where it was not reached or its divisor is 0.
/// That of a beam's shear is reached only where the web does not crush (6.3.1v).
/// A member whose check without a figure fails may have none above 1.0: whether it is OK is said by its line alone.
#[derive(Clone, Copy, Debug, PartialEq)]
pub struct Utilization {
    pub places: [Option<f64>; 4],
    /// The largest of them.
    pub governing: Option<f64>,
}

/// Totals of groups of bars.
#[derive(Clone, Copy, Debug, PartialEq, Eq)]
pub struct BarTotals {
    /// The number of bars.
    pub bars: u64,
    /// Their area in tenths of mm².
    pub area: u64,
    /// The sum of n·d for n bars of diameter d, in mm.
    pub diameters: u64,
    /// The sum of n·d², in mm².
    pub squares: u64,
}

/// Kind 1, under a uniform load; also the beam of a `PointLoadedBeam`. Lengths in mm, moments in N·m, shear in N. Concrete is a
/// grade, 20 to 80 in steps of five, in every kind.
#[derive(Clone, Copy, Debug)]
pub struct Beam {
    pub b: u32,
    pub h: u32,
    pub bf: u32,
    pub hf: u32,
    /// as and a': distances of the tension and the compression steel from their faces.
    pub tension_distance: u32,
    pub compression_distance: u32,
    pub concrete: u32,
    pub steel: u32,
    pub tension_groups: u32,
    pub compression_groups: u32,
    pub link_diameter: u32,
    pub legs: u32,
    pub link_spacing: u32,
    pub link_steel: u32,
    pub cover: u32,
    pub span: u32,
    pub m: u32,
    pub mq: u32,
    pub v: u32,
    pub environment: u32,
    pub strict: u32,
}

/// Kind 4: a beam under a point load. Lengths in mm.
#[derive(Clone, Copy, Debug)]
pub struct PointLoadedBeam {
    pub beam: Beam,
    /// a: distance from the load to the support, at most `beam.span`. 0 is accepted: a load at the support, with the shear
    /// capacity that a uniform load has.
    pub load_distance: u32,
}

/// Kind 2. Lengths in mm, N in N.
#[derive(Clone, Copy, Debug)]
pub struct Column {
    pub b: u32,
    pub h: u32,
    pub concrete: u32,
    pub steel: u32,
    pub groups: u32,
    pub link_diameter: u32,
    pub link_spacing: u32,
    pub l0: u32,
    pub n: u32,
}

/// Kind 3. Lengths in mm.
#[derive(Clone, Copy, Debug)]
pub struct Mesh {
    pub family: u32,
    pub concrete: u32,
    pub diameter: u32,
    pub cross_bar: u32,
    pub paired: u32,
    pub apart: u32,
    pub seismic: u32,
    pub lap: u32,
    pub compression: u32,
    pub anchorage_given: u32,
    pub lap_given: u32,
}

/// The slots of the groups that a count names in a list. Those of a group that the list does not have hold 0, which is no
/// diameter.
fn group_slots(groups: &[Group], count: u32) -> [u32; 2 * MOST_GROUPS] {
    let mut slots = [0; 2 * MOST_GROUPS];
    for (two, group) in slots.chunks_exact_mut(2).zip(groups).take(count as usize) {
        two.copy_from_slice(&[group.diameter, group.bars]);
    }
    slots
}

fn joined(parts: &[&[u32]]) -> [u32; SLOTS] {
    let mut slots = [0; SLOTS];
    for (slot, word) in slots.iter_mut().zip(parts.iter().copied().flatten()) {
        *slot = *word;
    }
    slots
}

/// The slots of a beam with these fields; each list follows its count, field 8 and 9.
fn beam_slots(fields: &[u32], first: &[Group], second: &[Group]) -> [u32; SLOTS] {
    let (first, second) = (group_slots(first, fields[8]), group_slots(second, fields[9]));
    joined(&[&fields[..9], &first, &fields[9..10], &second, &fields[10..]])
}

impl Record {
    /// A built member as a record, its lists as for `member_report`: the same member, which is put the same questions and, in
    /// a schedule, that its mark is above the one before. So a count above 4, or above the length of its list, is a no to 7.
    /// Groups past a count, and fields past those of the kind, are left out. An unknown kind keeps its fields.
    pub fn of(member: &Member, first: &[Group], second: &[Group]) -> Record {
        const BEAM: u32 = Kind::Beam as u32;
        const COLUMN: u32 = Kind::Column as u32;
        const MESH: u32 = Kind::Mesh as u32;
        const POINT_LOADED_BEAM: u32 = Kind::PointLoadedBeam as u32;
        let f = &member.fields;
        let slots = match member.kind {
            BEAM => beam_slots(&f[..21], first, second),
            // the list follows its count, field 4
            COLUMN => joined(&[&f[..5], &group_slots(first, f[4]), &f[5..9]]),
            MESH => joined(&[&f[..11]]),
            POINT_LOADED_BEAM => beam_slots(&f[..22], first, second),
            _ => joined(&[f]),
        };
        Record { mark: member.mark, kind: member.kind, slots }
    }
}

fn built(mark: u32, kind: Kind, used: &[u32]) -> Member {
    let mut fields = [0; FIELDS];
    fields[..used.len()].copy_from_slice(used);
    Member { mark, kind: kind as u32, fields }
}

impl Beam {
    fn fields(&self) -> [u32; 21] {
        let x = self;
        [
            x.b,
            x.h,
            x.bf,
            x.hf,
            x.tension_distance,
            x.compression_distance,
            x.concrete,
            x.steel,
            x.tension_groups,
            x.compression_groups,
            x.link_diameter,
            x.legs,
            x.link_spacing,
            x.link_steel,
            x.cover,
            x.span,
            x.m,
            x.mq,
            x.v,
            x.environment,
            x.strict,
        ]
    }

    pub fn member(&self, mark: u32) -> Member {
        built(mark, Kind::Beam, &self.fields())
    }

    /// `Record::of` the member and its tension and compression groups.
    pub fn record(&self, mark: u32, tension: &[Group], compression: &[Group]) -> Record {
        Record::of(&self.member(mark), tension, compression)
    }
}

impl PointLoadedBeam {
    pub fn member(&self, mark: u32) -> Member {
        let fields = [&self.beam.fields()[..], &[self.load_distance]].concat();
        built(mark, Kind::PointLoadedBeam, &fields)
    }

    /// `Record::of` the member and its tension and compression groups.
    pub fn record(&self, mark: u32, tension: &[Group], compression: &[Group]) -> Record {
        Record::of(&self.member(mark), tension, compression)
    }
}

impl Column {
    pub fn member(&self, mark: u32) -> Member {
        let x = self;
        let links = [x.link_diameter, x.link_spacing];
        built(
            mark,
            Kind::Column,
            &[x.b, x.h, x.concrete, x.steel, x.groups, links[0], links[1], x.l0, x.n],
        )
    }

    /// `Record::of` the member and its groups.
    pub fn record(&self, mark: u32, groups: &[Group]) -> Record {
        Record::of(&self.member(mark), groups, &[])
    }
}

impl Mesh {
    pub fn member(&self, mark: u32) -> Member {
        let x = self;
        let bars = [x.family, x.concrete, x.diameter, x.cross_bar, x.paired, x.apart];
        let rest = [x.seismic, x.lap, x.compression, x.anchorage_given, x.lap_given];
        built(mark, Kind::Mesh, &[&bars[..], &rest[..]].concat())
    }

    /// `Record::of` the member.
    pub fn record(&self, mark: u32) -> Record {
        Record::of(&self.member(mark), &[], &[])
    }
}

fn written(answer: raw::Answer, out: &[u8]) -> Result<&[u8], Refusal> {
    if answer.question == raw::ACCEPTED {
        Ok(&out[..answer.length])
    } else {
        Err(Refusal { question: answer.question, member: answer.member })
    }
}

/// The report of a schedule's bytes: the text, which fills `out` from its first byte. A refusal leaves `out` as it was.
pub fn report<'a>(schedule: &[u8], out: &'a mut [u8]) -> Result<&'a [u8], Refusal> {
    // SAFETY: both pointers are valid for their lengths, and `out` is borrowed alone.
    let answer = unsafe {
        raw::koxaltes_report(schedule.as_ptr(), schedule.len(), out.as_mut_ptr(), out.len())
    };
    written(answer, out)
}

/// The line of one built member. `first` are a beam's tension groups or a column's groups, `second` a beam's compression
/// groups. Groups past a count, and a list that the kind does not have, are not read.
pub fn member_report<'a>(
    member: &Member,
    first: &[Group],
    second: &[Group],
    out: &'a mut [u8],
) -> Result<&'a [u8], Refusal> {
    // SAFETY: every pointer is valid for its length, and `out` is borrowed alone.
    let answer = unsafe {
        raw::koxaltes_member_report(
            *member,
            first.as_ptr(),
            first.len(),
            second.as_ptr(),
            second.len(),
            out.as_mut_ptr(),
            out.len(),
        )
    };
    written(answer, out)
}

/// The utilizations of one built member, its lists as for `member_report`. The floating-point rounding mode has to be the
/// default one, to nearest.
pub fn member_utilization(
    member: &Member,
    first: &[Group],
    second: &[Group],
) -> Result<Utilization, Refusal> {
    // SAFETY: both pointers are valid for their lengths.
    let a = unsafe {
        raw::koxaltes_member_utilization(
            *member,
            first.as_ptr(),
            first.len(),
            second.as_ptr(),
            second.len(),
        )
    };
    if a.question != raw::ACCEPTED {
        return Err(Refusal { question: a.question, member: a.member });
    }
    let u = a.utilization;
    Ok(Utilization {
        places: [
            u.first_reached.then_some(u.first),
            u.second_reached.then_some(u.second),
            u.third_reached.then_some(u.third),
            u.fourth_reached.then_some(u.fourth),
        ],
        governing: a.governs.then_some(a.governing),
    })
}

/// The totals of the first `count` groups of a list; groups past them are not read. Refused with question 7 and member 1 where
/// the count is above 4 or above the list's length, or one of those groups is out of range. A count of 0 gives zeros.
pub fn bar_totals(groups: &[Group], count: usize) -> Result<BarTotals, Refusal> {
    // SAFETY: the pointer is valid for its length.
    let a = unsafe { raw::koxaltes_bar_totals(groups.as_ptr(), groups.len(), count) };
    if a.question != raw::ACCEPTED {
        return Err(Refusal { question: a.question, member: a.member });
    }
    Ok(BarTotals { bars: a.bars, area: a.area, diameters: a.diameters, squares: a.squares })
}

/// The file of a held schedule: its bytes, which fill `out` from its first byte. Refused with question 4 where there are more
/// than 500 records; then with the first no to 5 to 10 or 14 and the record's place from 1; last with 13. A refusal leaves
/// `out` as it was. The file is an accepted schedule with these members, and no other file has them.
pub fn write_schedule<'a>(records: &[Record], out: &'a mut [u8]) -> Result<&'a [u8], Refusal> {
    // SAFETY: a record is `RECORD_WORDS` words without padding, so the pointer is valid for that many times the length, which
    // no slice makes overflow; `out` is valid for its length and borrowed alone.
    let answer = unsafe {
        raw::koxaltes_write_schedule(
            records.as_ptr().cast(),
            records.len() * RECORD_WORDS,
            out.as_mut_ptr(),
            out.len(),
        )
    };
    written(answer, out)
}
