//! Demand 3: what a report's text says of its members, held against exact fractions.

use crate::fraction::Fraction;
use crate::model::beam::Beam;
use crate::model::column::Column;
use crate::model::member::{Body, Member};
use crate::model::mesh::Mesh;
use crate::model::tables::{self, STABILITY};

fn whole(value: u64) -> Fraction {
    Fraction::whole(value)
}

fn of(upper: u64, lower: u64) -> Fraction {
    Fraction::of(upper, lower)
}

/// How a figure's exact inequality reads.
enum Side {
    /// A capacity, not below its demand.
    Capacity,
    /// A width, deflection or length, not above its limit.
    Extent,
}

/// A check with a figure: its place in the line, its exact figure, bound and distance.
struct Figured {
    name: &'static str,
    place: usize,
    side: Side,
    exact: Fraction,
    bound: Fraction,
    distance: Fraction,
}

/// A check without a figure and its inequality.
struct Plain {
    name: &'static str,
    holds: bool,
}

/// The exact inequalities of a member.
struct Exact {
    figured: Vec<Figured>,
    plain: Vec<Plain>,
}

impl Figured {
    fn capacity(name: &'static str, place: usize, exact: Fraction, bound: u64, n: u64) -> Self {
        let (bound, distance) = (whole(bound), whole(n));
        Figured { name, place, side: Side::Capacity, exact, bound, distance }
    }

    fn extent(
        name: &'static str,
        place: usize,
        exact: Fraction,
        bound: Fraction,
        distance: Fraction,
    ) -> Self {
        Figured { name, place, side: Side::Extent, exact, bound, distance }
    }

    /// By how much the exact inequality holds; below 0 where it fails.
    fn margin(&self) -> Fraction {
        match self.side {
            Side::Capacity => self.exact.clone() - self.bound.clone(),
            Side::Extent => self.bound.clone() - self.exact.clone(),
        }
    }

    /// How far the printed figure lies on the safe side; below 0 where it is unsafe.
    fn slack(&self, printed: u64) -> Fraction {
        match self.side {
            Side::Capacity => self.exact.clone() - whole(printed),
            Side::Extent => whole(printed) - self.exact.clone(),
        }
    }
}

/// As, mm².
fn steel_area(tenths: u64) -> Fraction {
    of(tenths, 10)
}

/// How far a grade is above C50; C80 is 30 above it.
fn above(beam: &Beam) -> u64 {
    beam.concrete.grade.max(50) - 50
}

/// α1: 1.00 up to C50, then 0.01 less each grade (document 02, wish 7).
fn stress_factor(beam: &Beam) -> Fraction {
    whole(1) - of(1, 100) * of(above(beam), 5)
}

/// A number that is `start` up to C50 and goes straight to `end` at C80.
fn straight(beam: &Beam, start: Fraction, end: Fraction) -> Fraction {
    start.clone() - (start - end) * of(above(beam), 80 - 50)
}

/// What 4.2.2-3 allows of h0: the steel's e up to C50, above β1/(1 + fy/(Es·εcu)) (GB 6.2.7).
fn depth_limit(beam: &Beam) -> Fraction {
    if beam.concrete.grade <= 50 {
        return of(beam.steel.depth, 100);
    }
    let block_depth = straight(beam, of(80, 100), of(74, 100));
    let strain = of(33, 10_000) - of(above(beam), 100_000);
    block_depth / (whole(1) + whole(beam.steel.fy) / (whole(ES) * strain))
}

/// k = α1·fc·b, N/mm of compression depth.
fn block_force(beam: &Beam) -> Fraction {
    stress_factor(beam) * of(beam.concrete.fc, 10) * whole(beam.b)
}

/// 4.2.2 or 4.2.3, N·m.
fn moment(beam: &Beam) -> (&'static str, Fraction) {
    let fy = whole(beam.steel.fy);
    let force = |tenths| fy.clone() * steel_area(tenths);
    let compression = force(beam.compression.area);
    let net = force(beam.tension.area) - compression.clone();
    let block = block_force(beam);
    let h0 = whole(beam.h0());
    let edge = whole(beam.cover_compression);
    let lever = h0.clone() - edge.clone();
    if beam.compression.area == 0 || net >= whole(2) * edge * block.clone() {
        let block_loss = net.clone() * net.clone() / (whole(2) * block);
        ("4.2.2", (net * h0 + compression * lever - block_loss) / whole(1000))
    } else {
        ("4.2.3", force(beam.tension.area) * lever / whole(1000))
    }
}

/// λ = a/h0, held to 1.5-3.
fn shear_ratio(beam: &Beam, distance: u64) -> Fraction {
    of(distance, beam.h0()).max(of(15, 10)).min(whole(3))
}

/// The concrete part of 4.3.3, N: 1.75·ft·b·h0/(λ + 1) under a point load.
fn concrete_part(beam: &Beam) -> Fraction {
    let section = of(beam.concrete.ft, 100) * whole(beam.b) * whole(beam.h0());
    match beam.load_distance {
        Some(distance) => of(175, 100) * section / (shear_ratio(beam, distance) + whole(1)),
        None => of(7, 10) * section,
    }
}

/// 4.3.3, N.
fn shear(beam: &Beam) -> Fraction {
    let links = whole(beam.legs) * steel_area(tables::area(beam.link_diameter).unwrap());
    let links = whole(beam.link_steel.fyv) * links * whole(beam.h0()) / whole(beam.spacing);
    concrete_part(beam) + links
}

/// β of 6.3.1v: 0.25 where h0/b is at most 4, 0.20 from 6, straight between (document 02, wish 6).
fn web_factor(beam: &Beam) -> Fraction {
    let ratio = of(beam.h0(), beam.b);
    let (squat, slender) = (of(25, 100), of(20, 100));
    if ratio <= whole(4) {
        squat
    } else if ratio >= whole(6) {
        slender
    } else {
        squat.clone() - (squat - slender) * (ratio - whole(4)) / whole(6 - 4)
    }
}

/// 6.3.1v: V at most β·βc·fc·b·h0, βc 1 up to C50, straight to 0.8 at C80 (document 02, wish 7).
fn web_holds(beam: &Beam) -> bool {
    let section = of(beam.concrete.fc, 10) * whole(beam.b) * whole(beam.h0());
    let concrete = straight(beam, whole(1), of(8, 10));
    whole(beam.shear) <= web_factor(beam) * concrete * section
}

/// Whether a member is a beam that fails 6.3.1v. No later check is reached then, so none has a figure or a share.
pub fn web_fails(member: &Member) -> bool {
    matches!(&member.body, Body::Beam(beam) if !web_holds(beam))
}

/// f = Mq/(0.87·h0·As), N/mm².
fn stress(beam: &Beam) -> Fraction {
    whole(1000 * beam.moment_quasi)
        / (of(87, 100) * whole(beam.h0()) * steel_area(beam.tension.area))
}

/// p = As/(0.5·b·h + (bf-b)·hf).
fn ratio(beam: &Beam) -> Fraction {
    let effective = of(beam.b * beam.h, 2) + whole((beam.bf - beam.b) * beam.hf);
    steel_area(beam.tension.area) / effective
}

/// ψ = 1.1 - 0.65·ftk/(p·f), held to 0.2-1.
fn strain_factor(beam: &Beam) -> Fraction {
    let ftk = of(beam.concrete.ftk, 100);
    let free = of(11, 10) - of(65, 100) * ftk / (ratio(beam) * stress(beam));
    free.max(of(2, 10)).min(whole(1))
}

const ES: u64 = 200_000;

/// 1.9·ψ·(f/Es)·(1.9·c + 0.08·E/(D·p)), mm.
fn width(beam: &Beam) -> Fraction {
    let cover = of(19, 10) * whole(beam.cover.clamp(20, 65));
    let bars = &beam.tension;
    let spread = of(8, 100) * of(bars.squares, bars.diameters) / ratio(beam);
    of(19, 10) * strain_factor(beam) * (stress(beam) / whole(ES)) * (cover + spread)
}

/// 5·Mq·θ·l0²/(48·Bs), mm.
fn deflection(beam: &Beam) -> Fraction {
    let area = steel_area(beam.tension.area);
    let h0 = whole(beam.h0());
    let modular = whole(6 * ES) * area.clone() / whole(beam.concrete.ec * beam.b * beam.h0());
    let softening = of(115, 100) * strain_factor(beam) + of(2, 10) + modular;
    let stiffness = whole(ES) * area * h0.clone() * h0 / softening;
    let least = beam.tension.area.min(beam.compression.area);
    let mut theta = whole(2) - of(4, 10) * of(least, beam.tension.area);
    if beam.bf > beam.b {
        theta = of(12, 10) * theta;
    }
    whole(5 * 1000 * beam.moment_quasi) * theta * whole(beam.span * beam.span)
        / (whole(48) * stiffness)
}

/// l0/n, mm.
fn deflection_limit(beam: &Beam) -> Fraction {
    let divisor = match (beam.span, beam.strict) {
        (..7000, false) => 200,
        (..7000, true) => 250,
        (7000..=9000, false) => 250,
        (7000..=9000, true) => 300,
        (_, false) => 300,
        (_, true) => 400,
    };
    of(beam.span, divisor)
}

/// Link spacing by height, where V needs links and where it does not.
fn spacing_limit(beam: &Beam, needed: bool) -> u64 {
    let row = [300, 500, 800].iter().filter(|&&height| beam.h > height).count();
    let limits = if needed { [150, 200, 250, 300] } else { [200, 300, 350, 400] };
    limits[row]
}

/// The beam's checks without a figure.
fn plain_of_beam(beam: &Beam) -> Vec<Plain> {
    let ft = of(beam.concrete.ft, 100);
    let area = steel_area(beam.tension.area);
    let gross = whole(beam.b * beam.h + (beam.bf - beam.b) * beam.hf);
    let tension = area.clone() * whole(beam.steel.fy);
    let net = tension.clone() - steel_area(beam.compression.area) * whole(beam.steel.fy);
    let depth = net / block_force(beam);
    let concrete = of(7, 10) * ft.clone() * whole(beam.b) * whole(beam.h0());
    let needed = whole(beam.shear) > concrete;
    let links = whole(beam.legs) * steel_area(tables::area(beam.link_diameter).unwrap());
    let least =
        of(24, 100) * ft.clone() * whole(beam.b * beam.spacing) / whole(beam.link_steel.fyv);
    let plain = |name, holds| Plain { name, holds };
    vec![
        plain("6.3.1", area >= of(2, 1000) * gross.clone() && tension >= of(45, 100) * ft * gross),
        plain("4.2.2-3", depth <= depth_limit(beam) * whole(beam.h0())),
        plain("6.3.1v", web_holds(beam)),
        plain("5.5.6s", beam.spacing <= spacing_limit(beam, needed)),
        plain("5.5.6r", !needed || links >= least),
        plain("4.4.1", stress(beam) <= whole(beam.steel.fyk)),
    ]
}

fn exact_of_beam(beam: &Beam) -> Exact {
    let (name, capacity) = moment(beam);
    let limit = whole(if beam.environment == 1 { 300 } else { 200 });
    let hundredths = |millimetres: Fraction| whole(100) * millimetres;
    let figured = vec![
        Figured::capacity(name, 0, capacity, beam.moment, 1),
        Figured::capacity("4.3.3", 1, shear(beam), beam.shear, 2),
        Figured::extent("4.4.2", 2, whole(1000) * width(beam), limit, of(11, 10)),
        Figured::extent(
            "4.5.1",
            3,
            hundredths(deflection(beam)),
            hundredths(deflection_limit(beam)),
            of(12, 10),
        ),
    ];
    Exact { figured, plain: plain_of_beam(beam) }
}

/// φ, straight between the table's points.
fn stability(column: &Column) -> Fraction {
    let ratio = of(column.length, column.b);
    for row in (0..STABILITY.len()).rev() {
        let start = whole(8 + 2 * row as u64);
        if ratio >= start {
            let here = of(STABILITY[row], 100);
            let next = of(STABILITY[(row + 1).min(STABILITY.len() - 1)], 100);
            return here.clone() - (here - next) * (ratio - start) / whole(2);
        }
    }
    whole(1)
}

/// 4.2.4, N.
fn axial(column: &Column) -> Fraction {
    let steel = steel_area(column.bars.area);
    let mut area = whole(column.b * column.h);
    if steel > of(3, 100) * area.clone() {
        area = area - steel.clone();
    }
    let squash = of(column.concrete.fc, 10) * area + whole(column.steel.axial) * steel;
    of(9, 10) * stability(column) * squash
}

fn exact_of_column(column: &Column) -> Exact {
    let steel = steel_area(column.bars.area);
    let links = of(column.bars.largest, 4) <= whole(column.link_diameter)
        && column.link_spacing <= 400.min(column.b).min(15 * column.bars.smallest);
    let plain = |name, holds| Plain { name, holds };
    let plain = vec![
        plain("5.6.1", steel <= of(5, 100) * whole(column.b * column.h)),
        plain("5.6.2", links),
        plain("4.2.4s", of(column.length, column.b) <= whole(50)),
    ];
    let figured = vec![Figured::capacity("4.2.4", 0, axial(column), column.axial, 1)];
    Exact { figured, plain }
}

/// The anchorage line with one of its rows, mm.
fn anchorage(mesh: &Mesh, cross_bar: bool, apart: bool) -> Fraction {
    let multiple = tables::anchorage_multiple(mesh.family, cross_bar, mesh.concrete.grade);
    let paired = if mesh.paired { of(14, 10) } else { whole(1) };
    let apart = if apart { of(8, 10) } else { whole(1) };
    let seismic = [whole(1), of(115, 100), of(115, 100), of(105, 100), whole(1)];
    let length = whole(multiple * mesh.diameter) * paired * apart;
    length.max(whole(200)) * seismic[mesh.seismic as usize].clone()
}

/// 5.3.7, mm.
fn lap(mesh: &Mesh) -> Fraction {
    let least = if mesh.flat { 300 } else { 200 };
    let extra = if mesh.diameter >= 12 { 5 * mesh.diameter } else { 0 };
    let length = (of(13, 10) * anchorage(mesh, !mesh.flat, false)).max(whole(least));
    let length = length + whole(extra);
    if mesh.compression {
        (of(7, 10) * length).max(whole(150))
    } else {
        length
    }
}

fn exact_of_mesh(mesh: &Mesh) -> Exact {
    let length =
        |name, place, exact, given| Figured::extent(name, place, exact, whole(given), whole(1));
    let anchorage = anchorage(mesh, mesh.cross_bar, mesh.apart);
    let figured = vec![
        length("5.2.5", 0, anchorage, mesh.anchorage_given),
        length("5.3.7", 1, lap(mesh), mesh.lap_given),
    ];
    Exact { figured, plain: Vec::new() }
}

fn exact(member: &Member) -> Exact {
    match &member.body {
        Body::Beam(beam) => exact_of_beam(beam),
        Body::Column(column) => exact_of_column(column),
        Body::Mesh(mesh) => exact_of_mesh(mesh),
    }
}

/// The value of a word of digits without needless zeros.
fn value(word: &str) -> Result<u64, String> {
    let value: u64 = word.parse().map_err(|_| format!("{word:?} is no number"))?;
    if value.to_string() == word {
        Ok(value)
    } else {
        Err(format!("{word:?} is not written plainly"))
    }
}

/// Each printed figure on its safe side and within its distance.
fn check_figures(exact: &Exact, words: &[&str]) -> Result<(), String> {
    for (place, word) in words.iter().enumerate() {
        if *word == "-" {
            continue;
        }
        let printed = value(word)?;
        let figured = exact.figured.iter().find(|figured| figured.place == place);
        let figured = figured.ok_or(format!("place {place} has no figure"))?;
        let slack = figured.slack(printed);
        if slack < whole(0) {
            return Err(format!("figure {printed} in place {place} is on the unsafe side"));
        }
        if slack >= figured.distance {
            return Err(format!("figure {printed} in place {place} is too far off"));
        }
    }
    Ok(())
}

/// OK only where all hold; a name only where its inequality fails or nearly fails.
fn check_word(exact: &Exact, word: &str) -> Result<(), String> {
    if word == "OK" {
        let figured = exact.figured.iter().filter(|check| check.margin() < whole(0));
        let plain = exact.plain.iter().filter(|check| !check.holds);
        let mut failed = figured.map(|check| check.name).chain(plain.map(|check| check.name));
        return failed.next().map_or(Ok(()), |name| Err(format!("OK, yet {name} fails")));
    }
    if let Some(check) = exact.figured.iter().find(|check| check.name == word) {
        if check.margin() < check.distance {
            return Ok(());
        }
    } else if let Some(check) = exact.plain.iter().find(|check| check.name == word) {
        if !check.holds {
            return Ok(());
        }
    }
    Err(format!("{word} is named without cause"))
}

/// Holds one line, without its newline, against its member.
pub fn check_line(member: &Member, line: &str) -> Result<(), String> {
    let words: Vec<&str> = line.split(' ').collect();
    let [mark, word, figures @ ..] = words.as_slice() else {
        return Err(format!("short line {line:?}"));
    };
    if figures.len() != 4 {
        return Err(format!("line {line:?} has not six words"));
    }
    if value(mark)? != u64::from(member.mark) {
        return Err(format!("mark {mark} is not the member's"));
    }
    if web_fails(member) && figures[1..].iter().any(|figure| *figure != "-") {
        return Err(format!("figures {figures:?} where 6.3.1v fails"));
    }
    let exact = exact(member);
    check_figures(&exact, figures)?;
    check_word(&exact, word)
}

/// Holds a whole report against its members.
pub fn check_report(members: &[Member], text: &[u8]) -> Result<(), String> {
    let text = std::str::from_utf8(text).map_err(|_| "not a text".to_string())?;
    let body = text.strip_suffix('\n').ok_or("no newline at the end")?;
    let mut lines = body.split('\n');
    if lines.next() != Some(&format!("members {}", members.len())) {
        return Err("first line".to_string());
    }
    for member in members {
        check_line(member, lines.next().ok_or("a line is missing")?)?;
    }
    lines.next().map_or(Ok(()), |line| Err(format!("line {line:?} too many")))
}
