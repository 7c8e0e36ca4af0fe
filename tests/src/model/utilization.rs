//! Shares for the viewer.

use super::beam::Beam;
use super::built::{self, Built, Group};
use super::member::{Body, Member};
use super::schedule::Refusal;

/// Shares of the report's four places; None where none was reached or the divisor is 0.
pub type Shares = [Option<f64>; 4];

/// The double nearest to the quotient; both numbers are below 2^53.
fn share(part: u64, whole: u64) -> Option<f64> {
    (whole != 0).then(|| part as f64 / whole as f64)
}

/// Demand and figure, or figure and limit, in the four places of a beam.
fn beam_share(beam: &Beam, place: usize, figure: u64) -> Option<f64> {
    match place {
        0 => share(beam.moment, figure),
        1 => share(beam.shear, figure),
        2 => share(figure, beam.width_limit()),
        _ => share(figure, 100 * beam.span / beam.deflection_divisor()),
    }
}

pub fn shares(member: &Member) -> Shares {
    let mut shares = [None; 4];
    for (place, &figure) in member.check().figures().iter().enumerate() {
        shares[place] = match &member.body {
            Body::Beam(beam) => beam_share(beam, place, figure),
            Body::Column(column) => share(column.axial, figure),
            Body::Mesh(mesh) if place == 0 => share(figure, mesh.anchorage_given),
            Body::Mesh(mesh) => share(figure, mesh.lap_given),
        };
    }
    shares
}

/// The largest share, if there is one.
pub fn governing(shares: &Shares) -> Option<f64> {
    shares.iter().flatten().copied().reduce(f64::max)
}

/// The shares of a built member.
pub fn member_utilization(
    built: &Built,
    first: &[Group],
    second: &[Group],
) -> Result<Shares, Refusal> {
    Ok(shares(&built::read(built, first, second)?))
}
