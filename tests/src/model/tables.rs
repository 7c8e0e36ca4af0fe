//! Materials of document 01.

/// Bar areas in tenths of mm² (000, table 3.2.3).
pub fn area(diameter: u64) -> Option<u64> {
    Some(match diameter {
        5 => 196,
        6 => 283,
        8 => 503,
        10 => 785,
        12 => 1131,
        14 => 1539,
        16 => 2011,
        18 => 2545,
        20 => 3142,
        22 => 3801,
        25 => 4909,
        28 => 6158,
        32 => 8042,
        36 => 10179,
        40 => 12566,
        50 => 19635,
        _ => return None,
    })
}

/// Strengths of a concrete grade.
#[derive(Debug, PartialEq, Eq)]
pub struct Concrete {
    pub grade: u64,
    /// Compressive strength, tenths of N/mm².
    pub fc: u64,
    /// Tensile strength, hundredths of N/mm² (002).
    pub ft: u64,
    /// Characteristic tensile strength, hundredths of N/mm² (GB).
    pub ftk: u64,
    /// Elastic modulus, N/mm² (GB).
    pub ec: u64,
}

const fn concrete_row(grade: u64, fc: u64, ft: u64, ftk: u64, ec: u64) -> Concrete {
    Concrete { grade, fc, ft, ftk, ec }
}

static CONCRETES: [Concrete; 13] = [
    concrete_row(20, 96, 110, 154, 25500),
    concrete_row(25, 119, 127, 178, 28000),
    concrete_row(30, 143, 143, 201, 30000),
    concrete_row(35, 167, 157, 220, 31500),
    concrete_row(40, 191, 171, 239, 32500),
    concrete_row(45, 211, 180, 251, 33500),
    concrete_row(50, 231, 189, 264, 34500),
    // document 02, wish 7
    concrete_row(55, 253, 196, 274, 35500),
    concrete_row(60, 275, 204, 285, 36000),
    concrete_row(65, 297, 209, 293, 36500),
    concrete_row(70, 318, 214, 299, 37000),
    concrete_row(75, 338, 218, 305, 37500),
    concrete_row(80, 359, 222, 311, 38000),
];

/// The row of a grade 20, 25 .. 80.
pub fn concrete(grade: u64) -> Option<&'static Concrete> {
    if !grade.is_multiple_of(5) || !(20..=80).contains(&grade) {
        return None;
    }
    CONCRETES.get((grade / 5 - 4) as usize)
}

/// Strengths of the longitudinal steel, N/mm².
#[derive(Debug, PartialEq, Eq)]
pub struct Steel {
    pub code: u64,
    pub fyk: u64,
    /// Design strength in tension and, in beams, in compression.
    pub fy: u64,
    /// Design compressive strength in axially loaded columns.
    pub axial: u64,
    /// Depth limit e up to C50, hundredths of h0.
    pub depth: u64,
}

static HRB400: Steel = Steel { code: 1, fyk: 400, fy: 360, axial: 360, depth: 52 };
static HRB500: Steel = Steel { code: 2, fyk: 500, fy: 435, axial: 400, depth: 48 };

pub fn steel(code: u64) -> Option<&'static Steel> {
    match code {
        1 => Some(&HRB400),
        2 => Some(&HRB500),
        _ => None,
    }
}

/// A link steel.
#[derive(Debug, PartialEq, Eq)]
pub struct LinkSteel {
    pub code: u64,
    /// N/mm².
    pub fyv: u64,
}

static HPB300_LINKS: LinkSteel = LinkSteel { code: 1, fyv: 270 };
static HRB400_LINKS: LinkSteel = LinkSteel { code: 2, fyv: 360 };

pub fn link_steel(code: u64) -> Option<&'static LinkSteel> {
    match code {
        1 => Some(&HPB300_LINKS),
        2 => Some(&HRB400_LINKS),
        _ => None,
    }
}

/// Whether the diameter is one of the links'.
pub fn is_link_diameter(diameter: u64) -> bool {
    matches!(diameter, 6 | 8 | 10 | 12)
}

/// Stability factor φ, hundredths, at l0/b = 8, 10 .. 50 (4.2.4).
pub const STABILITY: [u64; 22] =
    [100, 98, 95, 92, 87, 81, 75, 70, 65, 60, 56, 52, 48, 44, 40, 36, 32, 29, 26, 23, 21, 19];

/// Anchorage multiples of d at C20, 25, 30, 35, 40 and above, by family and cross bar (5.2.5).
/// The 48 is the works' own (document 02, wish 1).
pub fn anchorage_multiple(family: u64, cross_bar: bool, grade: u64) -> u64 {
    let row = match (family, cross_bar) {
        (1, false) => [45, 40, 35, 32, 30],
        (1, true) => [32, 28, 25, 22, 21],
        (_, false) => [55, 48, 43, 39, 36],
        (_, true) => [39, 34, 30, 27, 25],
    };
    row[(grade.min(40) / 5 - 4) as usize]
}
