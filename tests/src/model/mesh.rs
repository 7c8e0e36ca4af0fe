//! Kind 3: ribbed welded mesh.

use super::member::{No, Numbers};
use super::outcome::{Check, Outcome};
use super::tables::{self, Concrete};

#[derive(Clone, Copy, Debug, PartialEq, Eq)]
pub struct Mesh {
    pub family: u64,
    pub concrete: &'static Concrete,
    pub diameter: u64,
    pub cross_bar: bool,
    pub paired: bool,
    pub apart: bool,
    pub seismic: u64,
    /// Flat lap; otherwise stacked or nested.
    pub flat: bool,
    pub compression: bool,
    pub anchorage_given: u64,
    pub lap_given: u64,
}

/// Lengths are worked in units of 1/SCALE mm, in which every factor is exact.
pub const SCALE: u64 = 100_000;

impl Mesh {
    pub fn read(numbers: &mut impl Numbers) -> Result<Self, No> {
        let mesh = Mesh {
            family: numbers.within(1, 2)?,
            concrete: numbers.concrete()?,
            diameter: match numbers.number()? {
                d @ (5 | 6 | 8 | 10 | 12 | 14 | 16) => d,
                _ => return Err(7),
            },
            cross_bar: numbers.flag()?,
            paired: numbers.flag()?,
            apart: numbers.flag()?,
            seismic: numbers.within(0, 4)?,
            flat: numbers.within(1, 2)? == 2,
            compression: numbers.flag()?,
            anchorage_given: numbers.within(0, 100_000)?,
            lap_given: numbers.within(0, 100_000)?,
        };
        if mesh.apart && mesh.cross_bar {
            Err(8)
        } else {
            Ok(mesh)
        }
    }

    /// The row's multiple of d with its factors, at least 200, times the seismic factor.
    fn basic_length(&self, cross_bar: bool, apart: bool) -> u64 {
        let multiple = tables::anchorage_multiple(self.family, cross_bar, self.concrete.grade);
        let mut length = SCALE * multiple * self.diameter;
        if self.paired {
            length = length / 10 * 14;
        }
        if apart {
            length = length / 10 * 8;
        }
        length = length.max(200 * SCALE);
        match self.seismic {
            1 | 2 => length / 100 * 115,
            3 => length / 100 * 105,
            _ => length,
        }
    }

    /// 5.2.5: anchorage length in 1/SCALE mm.
    pub fn scaled_anchorage(&self) -> u64 {
        self.basic_length(self.cross_bar, self.apart)
    }

    /// 5.3.7: lap length in 1/SCALE mm.
    pub fn scaled_lap(&self) -> u64 {
        let least = if self.flat { 300 } else { 200 };
        let mut length = self.basic_length(!self.flat, false) / 10 * 13;
        length = length.max(least * SCALE);
        if self.diameter >= 12 {
            length += 5 * self.diameter * SCALE;
        }
        if self.compression {
            length = (length / 10 * 7).max(150 * SCALE);
        }
        length
    }

    /// The checks in order, up to the first that fails.
    pub fn check(&self) -> Outcome {
        let mut outcome = Outcome::default();
        let anchorage = self.scaled_anchorage().div_ceil(SCALE);
        outcome.push(anchorage);
        if anchorage > self.anchorage_given {
            return outcome.fails(Check::Anchorage);
        }
        let lap = self.scaled_lap().div_ceil(SCALE);
        outcome.push(lap);
        if lap > self.lap_given {
            return outcome.fails(Check::Lap);
        }
        outcome
    }
}
