//! Kinds 1 and 4: simple rectangular or inverted-T beams, under uniform load or a point load.

use super::member::{Bars, No, Numbers};
use super::outcome::{Check, Outcome};
use super::parameters::{Parameters, Ratio};
use super::tables::{self, Concrete, LinkSteel, Steel};

#[derive(Clone, Copy, Debug, PartialEq, Eq)]
pub struct Beam {
    pub b: u64,
    pub h: u64,
    /// Flange width bf and depth hf.
    pub bf: u64,
    pub hf: u64,
    /// Distance of the tension steel from its face.
    pub cover_tension: u64,
    /// Distance a' of the compression steel from its face.
    pub cover_compression: u64,
    pub concrete: &'static Concrete,
    pub steel: &'static Steel,
    pub tension: Bars,
    pub compression: Bars,
    pub link_diameter: u64,
    pub legs: u64,
    pub spacing: u64,
    pub link_steel: &'static LinkSteel,
    /// Cover c of the outermost tension bars.
    pub cover: u64,
    pub span: u64,
    /// M, N·m.
    pub moment: u64,
    /// Mq, N·m.
    pub moment_quasi: u64,
    /// V, N.
    pub shear: u64,
    pub environment: u64,
    pub strict: bool,
    /// a, the distance from a point load to the support: of kind 4 only (document 02, wish 3).
    pub load_distance: Option<u64>,
}

/// Steel stress and strain factor of the crack check, which the deflection takes up.
pub struct Cracked {
    /// σ, 0.0001 N/mm².
    pub stress: u64,
    /// q = ψ·σ.
    pub reduced: u64,
}

impl Beam {
    /// Reads the fields (7) and puts 8 to 10; then 14 (document 02, wish 5).
    pub fn read(numbers: &mut impl Numbers, point_loaded: bool) -> Result<Self, No> {
        let beam = Beam {
            b: numbers.within(100, 1000)?,
            h: numbers.within(160, 2000)?,
            bf: numbers.within(100, 3000)?,
            hf: numbers.within(0, 1000)?,
            cover_tension: numbers.within(20, 200)?,
            cover_compression: match numbers.within(0, 200)? {
                1..=19 => return Err(7),
                distance => distance,
            },
            concrete: numbers.concrete()?,
            steel: numbers.steel()?,
            tension: numbers.groups(1)?,
            compression: numbers.groups(0)?,
            link_diameter: numbers.link_diameter()?,
            legs: numbers.within(2, 8)?,
            spacing: numbers.within(50, 400)?,
            link_steel: tables::link_steel(numbers.number()?).ok_or(7u32)?,
            cover: numbers.within(15, 200)?,
            span: numbers.within(1000, 12_000)?,
            moment: numbers.within(0, 100_000_000)?,
            moment_quasi: numbers.within(1, 100_000_000)?,
            shear: numbers.within(0, 100_000_000)?,
            environment: numbers.within(1, 3)?,
            strict: numbers.flag()?,
            load_distance: if point_loaded { Some(numbers.within(0, 12_000)?) } else { None },
        };
        if !beam.is_consistent() {
            Err(8)
        } else if beam.tension.count > 40 || beam.compression.count > 40 {
            Err(9)
        } else if 5 * beam.tension.area > 2 * beam.b * beam.h0() {
            Err(10)
        } else if beam.moment_quasi > beam.moment {
            Err(14)
        } else {
            Ok(beam)
        }
    }

    /// Question 8.
    fn is_consistent(&self) -> bool {
        let flange = if self.bf == self.b {
            self.hf == 0
        } else {
            self.bf > self.b && self.hf >= 1 && 2 * self.hf <= self.h
        };
        flange
            && (self.cover_compression == 0) == (self.compression.groups == 0)
            && 2 * (self.cover_tension + self.cover_compression) <= self.h
            && self.cover < self.cover_tension
            && self.span <= 30 * self.h0()
            && self.load_distance.is_none_or(|distance| distance <= self.span)
    }

    pub fn kind(&self) -> u64 {
        if self.load_distance.is_some() {
            4
        } else {
            1
        }
    }

    pub fn h0(&self) -> u64 {
        self.h - self.cover_tension
    }

    fn flange_area(&self) -> u64 {
        (self.bf - self.b) * self.hf
    }

    /// G, the area that 6.3.1 counts.
    pub fn gross_area(&self) -> u64 {
        self.b * self.h + self.flange_area()
    }

    /// W, twice the effective tension area.
    pub fn doubled_tension_area(&self) -> u64 {
        self.b * self.h + 2 * self.flange_area()
    }

    /// t = fy·S - fy'·S', tenths of N.
    pub fn net_force(&self) -> i64 {
        let fy = self.steel.fy as i64;
        fy * (self.tension.area as i64 - self.compression.area as i64)
    }

    pub fn parameters(&self) -> Parameters {
        Parameters::of(self.concrete, self.steel)
    }

    /// k = α1·fc·b, thousandths of N/mm.
    pub fn block_force(&self) -> u64 {
        self.parameters().stress * self.concrete.fc * self.b
    }

    /// L, area of a link's legs, tenths of mm².
    pub fn link_area(&self) -> u64 {
        self.legs * tables::area(self.link_diameter).unwrap_or(0)
    }

    /// 6.3.1 (001): least tension steel.
    pub fn has_minimum_steel(&self) -> bool {
        let (steel, gross) = (self.tension.area, self.gross_area());
        50 * steel >= gross && 1000 * steel * self.steel.fy >= 45 * self.concrete.ft * gross
    }

    /// 4.2.2-3: compression depth within its part of h0.
    pub fn is_within_depth_limit(&self) -> bool {
        self.is_within_depth(self.parameters().depth)
    }

    /// t at most this part of h0·k.
    pub fn is_within_depth(&self, (upper, lower): Ratio) -> bool {
        let limit = upper * self.h0() * self.block_force();
        100 * lower as i64 * self.net_force() <= limit as i64
    }

    /// Whether the depth is below 2a', where 4.2.3 takes 4.2.2's place.
    pub fn is_shallow(&self) -> bool {
        self.compression.area > 0
            && 100 * self.net_force() < (2 * self.cover_compression * self.block_force()) as i64
    }

    /// 4.2.2 or 4.2.3: moment capacity, N·m.
    pub fn moment_capacity(&self) -> u64 {
        let lever = self.h0() - self.cover_compression;
        if self.is_shallow() {
            return self.steel.fy * self.tension.area * lever / 10_000;
        }
        let t = self.net_force() as u64;
        let compression = self.steel.fy * self.compression.area * lever;
        // Past 64 bits.
        let without_block = u128::from(t * self.h0() + compression);
        let (t, doubled_block) = (u128::from(t), 2 * u128::from(self.block_force()));
        ((doubled_block * without_block - 100 * t * t) / (10_000 * doubled_block)) as u64
    }

    /// What 6.3.1v holds V against, β·βc·fc·b·h0 in N.
    pub fn web_limit(&self) -> Ratio {
        let (upper, lower) = self.unreduced_web_limit();
        let web = self.parameters().web;
        (web.0 * upper, web.1 * lower)
    }

    /// β·fc·b·h0: β is 0.25 where h0/b is at most 4, 0.20 from 6, and 0.35 - h0/(40·b) between (document 02, wish 6).
    pub fn unreduced_web_limit(&self) -> Ratio {
        let (b, h0, fc) = (self.b, self.h0(), self.concrete.fc);
        if h0 <= 4 * b {
            (fc * b * h0, 40)
        } else if h0 >= 6 * b {
            (fc * b * h0, 50)
        } else {
            (fc * h0 * (14 * b - h0), 400)
        }
    }

    /// 6.3.1v: the web itself does not crush.
    pub fn is_within_web_limit(&self) -> bool {
        let (upper, lower) = self.web_limit();
        lower * self.shear <= upper
    }

    /// 4.3.3: shear capacity, N.
    pub fn shear_capacity(&self) -> u64 {
        let links = self.link_steel.fyv * self.link_area() * self.h0() / (10 * self.spacing);
        self.concrete_part() + links
    }

    /// The concrete part of 4.3.3, N: 0.7·ft·b·h0, or 1.75·ft·b·h0/(λ + 1) under a point load.
    pub fn concrete_part(&self) -> u64 {
        let Some(distance) = self.load_distance else {
            return self.concrete_shear() / 1000;
        };
        let (upper, lower) = self.shear_ratio(distance);
        175 * self.concrete.ft * self.b * self.h0() * lower / (10_000 * (upper + lower))
    }

    /// λ = a/h0 held to 1.5-3.
    pub fn shear_ratio(&self, distance: u64) -> Ratio {
        let h0 = self.h0();
        if 2 * distance < 3 * h0 {
            (3, 2)
        } else if distance > 3 * h0 {
            (3, 1)
        } else {
            (distance, h0)
        }
    }

    /// 7·ft·b·h0, in thousandths of N: under uniform load the concrete part of 4.3.3, and for every
    /// beam what table 5.5.6 turns on.
    pub fn concrete_shear(&self) -> u64 {
        7 * self.concrete.ft * self.b * self.h0()
    }

    /// Whether V exceeds 0.7·ft·b·h0.
    pub fn needs_links(&self) -> bool {
        1000 * self.shear > self.concrete_shear()
    }

    /// 5.5.6s: largest link spacing.
    pub fn spacing_limit(&self) -> u64 {
        let (needed, otherwise) = match self.h {
            0..=300 => (150, 200),
            301..=500 => (200, 300),
            501..=800 => (250, 350),
            _ => (300, 400),
        };
        if self.needs_links() {
            needed
        } else {
            otherwise
        }
    }

    /// 5.5.6r: least links where V asks for them.
    pub fn has_minimum_links(&self) -> bool {
        !self.needs_links()
            || 1000 * self.link_area() * self.link_steel.fyv
                >= 24 * self.concrete.ft * self.b * self.spacing
    }

    /// What 4.4.1 holds 10^6·Mq against.
    pub fn stress_limit(&self) -> u64 {
        87 * self.steel.fyk * self.h0() * self.tension.area
    }

    /// 4.4.1: steel stress at most fyk.
    pub fn is_within_stress_limit(&self) -> bool {
        1_000_000 * self.moment_quasi <= self.stress_limit()
    }

    /// σ and q of 4.4.2.
    pub fn cracked(&self) -> Cracked {
        let area = self.tension.area;
        let stress = (10_000_000_000 * self.moment_quasi).div_ceil(87 * self.h0() * area);
        let relief = 325 * self.concrete.ftk * self.doubled_tension_area() / area;
        let reduced =
            (11 * stress).div_ceil(10).saturating_sub(relief).max(stress.div_ceil(5)).min(stress);
        Cracked { stress, reduced }
    }

    /// 4.4.2: crack width, 0.001 mm.
    pub fn crack_width(&self, cracked: &Cracked) -> u64 {
        let bars = &self.tension;
        let spread =
            (40 * bars.squares * self.doubled_tension_area()).div_ceil(bars.diameters * bars.area);
        let k = 190 * self.cover.clamp(20, 65) + spread;
        (19 * cracked.reduced * k).div_ceil(2_000_000_000)
    }

    /// Largest crack width, 0.001 mm.
    pub fn width_limit(&self) -> u64 {
        if self.environment == 1 {
            300
        } else {
            200
        }
    }

    /// θ of 4.5.1 in millionths (GB 7.2.5).
    pub fn long_term_factor(&self) -> u64 {
        let area = self.tension.area;
        let theta = 2_000_000 - 400_000 * area.min(self.compression.area) / area;
        if self.bf > self.b {
            (6 * theta).div_ceil(5)
        } else {
            theta
        }
    }

    /// 4.5.1: deflection, 0.01 mm.
    pub fn deflection(&self, cracked: &Cracked) -> u64 {
        let section = self.concrete.ec * self.b * self.h0();
        let z = 200_000 + (120_000_000_000 * self.tension.area).div_ceil(section);
        let r = (115 * cracked.reduced).div_ceil(100) + (z * cracked.stress).div_ceil(1_000_000);
        let u = (29 * self.span * self.span * r).div_ceil(6400 * self.h0());
        (u * self.long_term_factor()).div_ceil(1_000_000_000_000)
    }

    /// n of the deflection limit l0/n.
    pub fn deflection_divisor(&self) -> u64 {
        let (usual, strict) = match self.span {
            0..=6999 => (200, 250),
            7000..=9000 => (250, 300),
            _ => (300, 400),
        };
        if self.strict {
            strict
        } else {
            usual
        }
    }

    /// The checks in order, up to the first that fails.
    pub fn check(&self) -> Outcome {
        let mut outcome = Outcome::default();
        if !self.has_minimum_steel() {
            return outcome.fails(Check::MinimumSteel);
        }
        if !self.is_within_depth_limit() {
            return outcome.fails(Check::DepthLimit);
        }
        let capacity = self.moment_capacity();
        outcome.push(capacity);
        if capacity < self.moment {
            let shallow = self.is_shallow();
            return outcome.fails(if shallow { Check::MomentShallow } else { Check::Moment });
        }
        if !self.is_within_web_limit() {
            return outcome.fails(Check::WebCrushing);
        }
        let capacity = self.shear_capacity();
        outcome.push(capacity);
        if capacity < self.shear {
            return outcome.fails(Check::Shear);
        }
        self.check_links(outcome)
    }

    /// The checks after 4.3.3.
    pub fn check_links(&self, outcome: Outcome) -> Outcome {
        if self.spacing > self.spacing_limit() {
            return outcome.fails(Check::LinkSpacing);
        }
        if !self.has_minimum_links() {
            return outcome.fails(Check::LinkRatio);
        }
        self.check_service(outcome)
    }

    /// The checks under Mq.
    fn check_service(&self, mut outcome: Outcome) -> Outcome {
        if !self.is_within_stress_limit() {
            return outcome.fails(Check::SteelStress);
        }
        let cracked = self.cracked();
        let width = self.crack_width(&cracked);
        outcome.push(width);
        if width > self.width_limit() {
            return outcome.fails(Check::CrackWidth);
        }
        let deflection = self.deflection(&cracked);
        outcome.push(deflection);
        if deflection * self.deflection_divisor() > 100 * self.span {
            return outcome.fails(Check::Deflection);
        }
        outcome
    }
}
