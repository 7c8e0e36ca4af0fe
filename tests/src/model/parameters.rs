//! The numbers that fall above C50 (document 02, wish 7).

use super::tables::{Concrete, Steel};

/// Es, N/mm².
const ES: u64 = 200_000;

/// An upper and a lower number.
pub type Ratio = (u64, u64);

/// What a grade, and for the depth limit a steel, give to the checks of a beam.
#[derive(Clone, Copy, Debug, PartialEq, Eq)]
pub struct Parameters {
    /// α1, hundredths: multiplies fc in k.
    pub stress: u64,
    /// βc: multiplies fc in 6.3.1v.
    pub web: Ratio,
    /// What 4.2.2-3 allows of h0.
    pub depth: Ratio,
}

impl Parameters {
    pub fn of(concrete: &Concrete, steel: &Steel) -> Self {
        let above = concrete.grade.saturating_sub(50);
        let depth = if above == 0 { (steel.depth, 100) } else { depth_limit(above, steel.fy) };
        Parameters { stress: 100 - above / 5, web: (150 - above, 150), depth }
    }
}

/// β1/(1 + fy/(Es·εcu)) at this grade above C50 (GB 6.2.7).
pub fn depth_limit(above: u64, fy: u64) -> Ratio {
    let block = (400 - above, 500);
    let strain = 330 - above;
    limit_of(block, strain, fy)
}

/// β1·Es·εcu/(Es·εcu + fy), with εcu in hundred-thousandths.
pub fn limit_of(block: Ratio, strain: u64, fy: u64) -> Ratio {
    let ultimate = ES / 100_000 * strain;
    (block.0 * ultimate, block.1 * (ultimate + fy))
}
