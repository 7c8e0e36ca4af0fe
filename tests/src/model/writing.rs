//! Schedules written: the bytes of held members, and question 13 (document 02, wish 2).

use super::beam::Beam;
use super::column::Column;
use super::held::{self, Held};
use super::member::Body;
use super::mesh::Mesh;
use super::report::{write_whole, Writer};
use super::schedule::Refusal;

/// No written schedule has more bytes.
const LONGEST: usize = 60_000;

/// The bytes of a schedule.
impl Writer<'_> {
    /// A number in groups of seven bits, lowest first, and no more of them than it needs.
    #[inline]
    fn groups_of_seven(&mut self, mut value: u64) {
        while value > 0x7f {
            self.put(&[0x80 | (value & 0x7f) as u8]);
            value >>= 7;
        }
        self.put(&[value as u8]);
    }

    #[inline]
    fn fields(&mut self, values: &[u64]) {
        for &value in values {
            self.groups_of_seven(value);
        }
    }

    /// A list's count and its groups.
    fn list(&mut self, groups: &[u32]) {
        self.groups_of_seven(groups.len() as u64 / 2);
        for &number in groups {
            self.groups_of_seven(u64::from(number));
        }
    }

    fn beam(&mut self, beam: &Beam, [tension, compression]: [&[u32]; 2]) {
        self.fields(&[beam.b, beam.h, beam.bf, beam.hf]);
        self.fields(&[beam.cover_tension, beam.cover_compression]);
        self.fields(&[beam.concrete.grade, beam.steel.code]);
        self.list(tension);
        self.list(compression);
        self.fields(&[beam.link_diameter, beam.legs, beam.spacing]);
        self.fields(&[beam.link_steel.code, beam.cover, beam.span]);
        self.fields(&[beam.moment, beam.moment_quasi, beam.shear]);
        self.fields(&[beam.environment, u64::from(beam.strict)]);
        self.fields(beam.load_distance.as_slice());
    }

    fn column(&mut self, column: &Column, bars: &[u32]) {
        self.fields(&[column.b, column.h, column.concrete.grade, column.steel.code]);
        self.list(bars);
        self.fields(&[column.link_diameter, column.link_spacing, column.length, column.axial]);
    }

    fn mesh(&mut self, mesh: &Mesh) {
        self.fields(&[mesh.family, mesh.concrete.grade, mesh.diameter]);
        self.fields(&[mesh.cross_bar, mesh.paired, mesh.apart].map(u64::from));
        self.fields(&[mesh.seismic, if mesh.flat { 2 } else { 1 }, u64::from(mesh.compression)]);
        self.fields(&[mesh.anchorage_given, mesh.lap_given]);
    }

    fn member(&mut self, held: &Held) {
        self.fields(&[u64::from(held.member.mark), held.member.kind()]);
        match &held.member.body {
            Body::Beam(beam) => self.beam(beam, held.lists),
            Body::Column(column) => self.column(column, held.lists[0]),
            Body::Mesh(mesh) => self.mesh(mesh),
        }
    }

    fn schedule(&mut self, members: &[Held]) {
        self.groups_of_seven(members.len() as u64);
        for held in members {
            self.member(held);
        }
    }
}

/// The schedule of held members, written from the buffer's first byte; yields its length.
/// A refusal leaves the buffer as it was. Of the `length` words these can be read.
pub fn write_schedule(words: &[u32], length: usize, out: &mut [u8]) -> Result<usize, Refusal> {
    let members = held::read(words, length)?;
    write_whole(out, LONGEST, |writer| writer.schedule(&members))
        .ok_or(Refusal { question: 13, member: 0 })
}
