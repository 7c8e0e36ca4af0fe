//! Members, and the questions 5 to 10 and 14 that are put to one.

use super::beam::Beam;
use super::column::Column;
use super::mesh::Mesh;
use super::outcome::Outcome;
use super::tables;

/// The number of the question that was answered no.
pub type No = u32;

/// A member's numbers, one after the other, wherever they come from.
pub trait Numbers {
    /// The next number of the member (2, 3).
    fn number(&mut self) -> Result<u64, No>;

    /// The next number as a group count, and the groups that it names (7).
    fn groups(&mut self, least: u64) -> Result<Bars, No>;

    fn within(&mut self, least: u64, most: u64) -> Result<u64, No> {
        let value = self.number()?;
        if (least..=most).contains(&value) {
            Ok(value)
        } else {
            Err(7)
        }
    }

    fn flag(&mut self) -> Result<bool, No> {
        Ok(self.within(0, 1)? == 1)
    }

    fn concrete(&mut self) -> Result<&'static tables::Concrete, No> {
        tables::concrete(self.number()?).ok_or(7)
    }

    fn steel(&mut self) -> Result<&'static tables::Steel, No> {
        tables::steel(self.number()?).ok_or(7)
    }

    fn link_diameter(&mut self) -> Result<u64, No> {
        let diameter = self.number()?;
        if tables::is_link_diameter(diameter) {
            Ok(diameter)
        } else {
            Err(7)
        }
    }
}

/// The most groups in a list.
pub const MOST_GROUPS: u64 = 4;

/// What the checks need of a list of bar groups.
#[derive(Clone, Copy, Debug, Default, PartialEq, Eq)]
pub struct Bars {
    pub groups: u32,
    pub count: u32,
    /// Sum of areas, tenths of mm².
    pub area: u64,
    /// Sum of n·d.
    pub diameters: u64,
    /// Sum of n·d².
    pub squares: u64,
    pub smallest: u64,
    pub largest: u64,
}

impl Bars {
    /// Adds a group of bars of a diameter in the list.
    pub fn add(&mut self, diameter: u64, area: u64, bars: u64) {
        self.smallest = if self.groups == 0 { diameter } else { self.smallest.min(diameter) };
        self.largest = self.largest.max(diameter);
        self.groups += 1;
        self.count += bars as u32;
        self.area += bars * area;
        self.diameters += bars * diameter;
        self.squares += bars * diameter * diameter;
    }

    /// Area of one bar of a group: diameter 6 to 50 of the list (7).
    pub fn area_of(diameter: u64) -> Result<u64, No> {
        if diameter < 6 {
            return Err(7);
        }
        tables::area(diameter).ok_or(7)
    }
}

/// The most bars in a group.
pub const MOST_BARS: u64 = 20;

/// A member's fields; kinds 1 and 4 are beams.
#[derive(Clone, Copy, Debug, PartialEq, Eq)]
pub enum Body {
    Beam(Beam),
    Column(Column),
    Mesh(Mesh),
}

#[derive(Clone, Copy, Debug, PartialEq, Eq)]
pub struct Member {
    pub mark: u32,
    pub body: Body,
}

impl Member {
    /// Reads mark, kind and fields; the mark is to be above the one before (5 to 10, 14).
    pub fn read(numbers: &mut impl Numbers, before: u32) -> Result<Self, No> {
        let mark = numbers.number()?;
        if mark > 999_999 || mark <= u64::from(before) {
            return Err(5);
        }
        let kind = numbers.number()?;
        let body = match kind {
            1 | 4 => Body::Beam(Beam::read(numbers, kind == 4)?),
            2 => Body::Column(Column::read(numbers)?),
            3 => Body::Mesh(Mesh::read(numbers)?),
            _ => return Err(6),
        };
        Ok(Member { mark: mark as u32, body })
    }

    pub fn kind(&self) -> u64 {
        match &self.body {
            Body::Beam(beam) => beam.kind(),
            Body::Column(_) => 2,
            Body::Mesh(_) => 3,
        }
    }

    /// Runs the checks of the member's kind.
    pub fn check(&self) -> Outcome {
        match &self.body {
            Body::Beam(beam) => beam.check(),
            Body::Column(column) => column.check(),
            Body::Mesh(mesh) => mesh.check(),
        }
    }
}
