//! Kind 2: tied rectangular columns under axial load.

use super::member::{Bars, No, Numbers};
use super::outcome::{Check, Outcome};
use super::tables::{Concrete, Steel, STABILITY};

#[derive(Clone, Copy, Debug, PartialEq, Eq)]
pub struct Column {
    pub b: u64,
    pub h: u64,
    pub concrete: &'static Concrete,
    pub steel: &'static Steel,
    pub bars: Bars,
    pub link_diameter: u64,
    pub link_spacing: u64,
    /// Effective length l0.
    pub length: u64,
    /// N, newtons.
    pub axial: u64,
}

impl Column {
    pub fn read(numbers: &mut impl Numbers) -> Result<Self, No> {
        let column = Column {
            b: numbers.within(300, 1500)?,
            h: numbers.within(300, 1500)?,
            concrete: numbers.concrete()?,
            steel: numbers.steel()?,
            bars: numbers.groups(1)?,
            link_diameter: numbers.link_diameter()?,
            link_spacing: numbers.within(50, 600)?,
            length: numbers.within(500, 30_000)?,
            axial: numbers.within(0, 1_000_000_000)?,
        };
        if column.b > column.h {
            Err(8)
        } else if column.bars.count > 40 {
            Err(9)
        } else {
            Ok(column)
        }
    }

    fn section(&self) -> u64 {
        self.b * self.h
    }

    /// 5.6.1: at most 5 percent of steel.
    pub fn is_within_maximum_steel(&self) -> bool {
        2 * self.bars.area <= self.section()
    }

    /// 5.6.2: link diameter and spacing.
    pub fn has_sufficient_links(&self) -> bool {
        4 * self.link_diameter >= self.bars.largest
            && self.link_spacing <= 400
            && self.link_spacing <= self.b
            && self.link_spacing <= 15 * self.bars.smallest
    }

    /// 4.2.4s: the table of φ ends at l0/b = 50.
    pub fn is_within_slenderness(&self) -> bool {
        self.length <= 50 * self.b
    }

    /// Whether the steel exceeds 3 percent, so that its area is taken off the concrete's.
    pub fn is_heavily_reinforced(&self) -> bool {
        10 * self.bars.area > 3 * self.section()
    }

    /// φ in hundredths times 2b, straight between the table's points (4.2.4).
    pub fn stability(&self) -> u64 {
        let doubled = 2 * self.b;
        if self.length <= 8 * self.b {
            return 100 * doubled;
        }
        let beyond = self.length - 8 * self.b;
        let row = (beyond / doubled) as usize;
        let start = STABILITY[row] * doubled;
        match STABILITY.get(row + 1) {
            Some(next) => start - (STABILITY[row] - next) * (beyond % doubled),
            None => start,
        }
    }

    /// fc·A + fy'·S in hundredths of N.
    pub fn squash_load(&self) -> u64 {
        let mut area = 10 * self.section();
        if self.is_heavily_reinforced() {
            area -= self.bars.area;
        }
        self.concrete.fc * area + 10 * self.steel.axial * self.bars.area
    }

    /// 4.2.4: axial capacity, N.
    pub fn axial_capacity(&self) -> u64 {
        9 * self.stability() * self.squash_load() / (200_000 * self.b)
    }

    /// The checks in order, up to the first that fails.
    pub fn check(&self) -> Outcome {
        let mut outcome = Outcome::default();
        if !self.is_within_maximum_steel() {
            return outcome.fails(Check::MaximumSteel);
        }
        if !self.has_sufficient_links() {
            return outcome.fails(Check::ColumnLinks);
        }
        if !self.is_within_slenderness() {
            return outcome.fails(Check::Slenderness);
        }
        let capacity = self.axial_capacity();
        outcome.push(capacity);
        if capacity < self.axial {
            return outcome.fails(Check::Axial);
        }
        outcome
    }
}
