//! What a checker finds of a member.

/// The checks of document 01, and 6.3.1v of document 02, wish 6, each named as the report prints it.
#[derive(Clone, Copy, Debug, PartialEq, Eq)]
pub enum Check {
    MinimumSteel,
    DepthLimit,
    Moment,
    MomentShallow,
    WebCrushing,
    Shear,
    LinkSpacing,
    LinkRatio,
    SteelStress,
    CrackWidth,
    Deflection,
    MaximumSteel,
    ColumnLinks,
    Slenderness,
    Axial,
    Anchorage,
    Lap,
}

impl Check {
    pub const ALL: [Check; 17] = [
        Check::MinimumSteel,
        Check::DepthLimit,
        Check::Moment,
        Check::MomentShallow,
        Check::WebCrushing,
        Check::Shear,
        Check::LinkSpacing,
        Check::LinkRatio,
        Check::SteelStress,
        Check::CrackWidth,
        Check::Deflection,
        Check::MaximumSteel,
        Check::ColumnLinks,
        Check::Slenderness,
        Check::Axial,
        Check::Anchorage,
        Check::Lap,
    ];

    pub fn name(self) -> &'static str {
        match self {
            Check::MinimumSteel => "6.3.1",
            Check::DepthLimit => "4.2.2-3",
            Check::Moment => "4.2.2",
            Check::MomentShallow => "4.2.3",
            Check::WebCrushing => "6.3.1v",
            Check::Shear => "4.3.3",
            Check::LinkSpacing => "5.5.6s",
            Check::LinkRatio => "5.5.6r",
            Check::SteelStress => "4.4.1",
            Check::CrackWidth => "4.4.2",
            Check::Deflection => "4.5.1",
            Check::MaximumSteel => "5.6.1",
            Check::ColumnLinks => "5.6.2",
            Check::Slenderness => "4.2.4s",
            Check::Axial => "4.2.4",
            Check::Anchorage => "5.2.5",
            Check::Lap => "5.3.7",
        }
    }
}

/// The first failed check, if any, and the figures worked out up to it.
/// Figures come in the order of the report's places, so the reached ones are the first ones.
#[derive(Clone, Copy, Debug, Default, PartialEq, Eq)]
pub struct Outcome {
    pub failed: Option<Check>,
    figures: [u64; 4],
    reached: usize,
}

impl Outcome {
    /// Notes the next place's figure.
    pub fn push(&mut self, figure: u64) {
        self.figures[self.reached] = figure;
        self.reached += 1;
    }

    pub fn figures(&self) -> &[u64] {
        &self.figures[..self.reached]
    }

    pub fn fails(mut self, check: Check) -> Self {
        self.failed = Some(check);
        self
    }
}
