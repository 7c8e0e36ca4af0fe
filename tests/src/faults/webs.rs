//! The comparison notices mistakes about 6.3.1v, and so does the claim.

use super::{line_of, put, Mistaken};
use crate::branches::Entry;
use crate::claim::{check_line, web_fails};
use crate::comparison::{agrees, Checker, Comparison, Model};
use crate::guard::{List, Words};
use crate::library::{BarTotals, Utilization};
use crate::make::{webs, Random};
use crate::model::beam::Beam;
use crate::model::built::{self, Built};
use crate::model::member::{Body, Member};
use crate::model::outcome::{Check, Outcome};
use crate::model::schedule::{self, Refusal};
use crate::model::utilization::shares;
use crate::runs;

#[derive(Clone, Copy, Debug, Default, PartialEq)]
enum Mistake {
    #[default]
    None,
    /// V equal to the limit fails.
    Below,
    /// The limit is rounded up.
    RoundedUp,
    /// β is 0.25 at every depth.
    SquatAlone,
    /// β is 0.25 up to h0/b = 5.
    SquatToFive,
    /// β is 0.25 up to 4·b and one mm more.
    SquatOneMore,
    /// β is 0.20 from h0/b = 5.
    SlenderFromFive,
    /// β is 0.20 from one mm less than 6·b.
    SlenderOneLess,
    /// β falls half as fast between 4 and 6.
    WrongSlope,
    /// β falls on above 6, to 0 at 14.
    FallsOn,
    /// β is 0.25 above h0/b = 14, where 14·b - h0 would wrap.
    Wraps,
    /// 4.3.3 is put first.
    ShearFirst,
    /// It is put before 4.2.2 and 4.2.3.
    MomentLast,
    /// The shear figure is shown where it fails.
    FigureShown,
    /// The moment figure is not shown where it fails.
    NoFigure,
    /// The beam is OK where it fails.
    Passed,
    /// 4.3.3 is named where it fails.
    OtherName,
    /// It is left out.
    LeftOut,
    /// It is left out after 4.2.3.
    LeftOutAfterShallow,
    /// It is left out in this kind.
    LeftOutOf(u64),
    /// h for h0.
    HeightForDepth,
    /// bf for b.
    FlangeForWidth,
    /// fc is ten times too large.
    TenTimes,
    /// The share of the shear is shown where it fails.
    ShareShown,
    /// The share of the moment is not shown where it fails.
    NoShare,
}

impl Mistake {
    /// 400·b·β; without mistake 100·b, 80·b, or 140·b - 10·h0 between.
    fn factor(self, b: u64, h0: u64) -> u64 {
        let falling = (140 * b).saturating_sub(10 * h0);
        match self {
            Mistake::SquatAlone => 100 * b,
            Mistake::SquatToFive if h0 <= 5 * b => 100 * b,
            Mistake::SquatOneMore if h0 <= 4 * b + 1 => 100 * b,
            Mistake::SlenderFromFive if h0 >= 5 * b => 80 * b,
            Mistake::SlenderOneLess if h0 >= 6 * b - 1 => 80 * b,
            Mistake::WrongSlope if 4 * b < h0 && h0 < 6 * b => 120 * b - 5 * h0,
            Mistake::FallsOn => falling.min(100 * b),
            Mistake::Wraps if h0 > 14 * b => 100 * b,
            _ => falling.clamp(80 * b, 100 * b),
        }
    }

    /// Whether 6.3.1v is taken to hold.
    fn holds(self, beam: &Beam) -> bool {
        let b = if self == Mistake::FlangeForWidth { beam.bf } else { beam.b };
        let h0 = if self == Mistake::HeightForDepth { beam.h } else { beam.h0() };
        let times = if self == Mistake::TenTimes { 10 } else { 1 };
        let (upper, lower) = beam.parameters().web;
        let limit = upper * self.factor(b, h0) * times * beam.concrete.fc * h0;
        let lower = 4000 * lower;
        match self {
            Mistake::Below => lower * beam.shear < limit,
            Mistake::RoundedUp => beam.shear <= limit.div_ceil(lower),
            Mistake::LeftOut => true,
            Mistake::LeftOutAfterShallow if beam.is_shallow() => true,
            Mistake::LeftOutOf(kind) if kind == beam.kind() => true,
            _ => lower * beam.shear <= limit,
        }
    }

    /// What is shown of a beam whose web is taken to crush.
    fn crushed(self, beam: &Beam, moment: u64) -> Outcome {
        let mut outcome = Outcome::default();
        if self != Mistake::NoFigure {
            outcome.push(moment);
        }
        if self == Mistake::FigureShown {
            outcome.push(beam.shear_capacity());
        }
        match self {
            Mistake::Passed => outcome,
            Mistake::OtherName => outcome.fails(Check::Shear),
            _ => outcome.fails(Check::WebCrushing),
        }
    }

    /// The checks of a beam.
    fn checks(self, beam: &Beam) -> Outcome {
        let unloaded = Beam { shear: 0, ..*beam }.check();
        let [moment, ..] = *unloaded.figures() else {
            return unloaded;
        };
        if moment < beam.moment && self != Mistake::MomentLast {
            return unloaded;
        }
        let capacity = beam.shear_capacity();
        let shear_fails = capacity < beam.shear;
        let shear_first = self == Mistake::ShearFirst && shear_fails;
        if !shear_first && !self.holds(beam) {
            return self.crushed(beam, moment);
        }
        if moment < beam.moment {
            return unloaded;
        }
        let mut outcome = Outcome::default();
        outcome.push(moment);
        outcome.push(capacity);
        if shear_fails {
            return outcome.fails(Check::Shear);
        }
        beam.check_links(outcome)
    }

    /// The member's line without its newline.
    fn line(self, member: &Member) -> String {
        let outcome = match &member.body {
            Body::Beam(beam) => self.checks(beam),
            _ => member.check(),
        };
        line_of(member, &outcome)
    }

    /// The shares of a beam that fails 6.3.1v, where the model has them.
    fn shares(self, beam: &Beam, mut right: Utilization) -> Utilization {
        match self {
            Mistake::ShareShown => {
                let share = beam.shear as f64 / beam.shear_capacity() as f64;
                right.shares[1] = share.to_bits();
                right.reached[1] = true;
            }
            Mistake::NoShare => right.reached[0] = false,
            _ => {}
        }
        right
    }
}

impl Checker for Mistaken<Mistake> {
    fn report(&self, schedule: &[u8], out: &mut [u8]) -> Result<usize, Refusal> {
        let mistake = self.about(Entry::File);
        let members = schedule::read(schedule)?;
        let lines = members.iter().map(|member| mistake.line(member) + "\n");
        let text = format!("members {}\n", members.len()) + &lines.collect::<String>();
        put(text.as_bytes(), out, Refusal { question: 12, member: 0 })
    }

    fn member_report(
        &self,
        built: &Built,
        first: List,
        second: List,
        out: &mut [u8],
    ) -> Result<usize, Refusal> {
        let member = built::read(built, first.readable(), second.readable())?;
        let line = self.about(Entry::Built).line(&member) + "\n";
        put(line.as_bytes(), out, Refusal { question: 12, member: 1 })
    }

    fn member_utilization(&self, built: &Built, first: List, second: List) -> Utilization {
        let right = Model.member_utilization(built, first, second);
        match built::read(built, first.readable(), second.readable()) {
            Ok(Member { body: Body::Beam(beam), .. })
                if beam.check().failed == Some(Check::WebCrushing) =>
            {
                self.about(Entry::Built).shares(&beam, right)
            }
            _ => right,
        }
    }

    fn bar_totals(&self, groups: List, count: usize) -> BarTotals {
        Model.bar_totals(groups, count)
    }

    fn write_schedule(&self, words: Words, out: &mut [u8]) -> Result<usize, Refusal> {
        Model.write_schedule(words, out)
    }
}

/// What a run of 6.3.1v finds.
fn outcome(mistake: Mistake, entry: Entry) -> Result<(), String> {
    let random = Random::new(6);
    let mut comparison = Comparison::new(Mistaken(mistake, entry), &random);
    runs::webs::webs(&mut comparison, &random, 5)
}

#[test]
fn a_checker_without_mistake_passes() {
    assert_eq!(outcome(Mistake::None, Entry::File), Ok(()));
}

/// Mistakes in a beam's line.
const IN_LINES: [Mistake; 23] = [
    Mistake::Below,
    Mistake::RoundedUp,
    Mistake::SquatAlone,
    Mistake::SquatToFive,
    Mistake::SquatOneMore,
    Mistake::SlenderFromFive,
    Mistake::SlenderOneLess,
    Mistake::WrongSlope,
    Mistake::FallsOn,
    Mistake::Wraps,
    Mistake::ShearFirst,
    Mistake::MomentLast,
    Mistake::FigureShown,
    Mistake::NoFigure,
    Mistake::Passed,
    Mistake::OtherName,
    Mistake::LeftOut,
    Mistake::LeftOutAfterShallow,
    Mistake::LeftOutOf(1),
    Mistake::LeftOutOf(4),
    Mistake::HeightForDepth,
    Mistake::FlangeForWidth,
    Mistake::TenTimes,
];

#[test]
fn mistakes_about_webs_are_noticed() {
    for mistake in IN_LINES {
        for (entry, input) in [(Entry::File, "schedule "), (Entry::Built, "Record ")] {
            let difference = outcome(mistake, entry).expect_err("a difference");
            assert!(difference.starts_with(input), "{mistake:?}: {difference}");
        }
    }
    for mistake in [Mistake::ShareShown, Mistake::NoShare] {
        let difference = outcome(mistake, Entry::Built).expect_err("a difference");
        assert!(difference.contains("checker: Utilization"), "{mistake:?}: {difference}");
    }
}

/// The beams at the edges.
fn members() -> impl Iterator<Item = Member> {
    webs::directed().into_iter().map(|record| record.read().expect("an accepted beam"))
}

/// Whether the claim rejects the line of one of them.
fn is_rejected(mistake: Mistake) -> bool {
    members().any(|member| check_line(&member, &mistake.line(&member)).is_err())
}

/// The claim alone notices each mistake by which a web that crushes is passed, or one that holds is named. It leaves
/// to the comparison which of the checks that fail is named, and a figure that is not shown.
#[test]
fn the_claim_rejects_mistakes_about_webs() {
    assert!(!is_rejected(Mistake::None));
    for mistake in IN_LINES {
        let is_left = matches!(mistake, Mistake::MomentLast | Mistake::NoFigure);
        assert_eq!(is_rejected(mistake), !is_left, "{mistake:?}");
    }
}

/// Where 4.3.3 is named in 6.3.1v's place, the claim rejects the line exactly if 4.3.3 holds.
#[test]
fn the_claim_leaves_the_name_of_a_check_that_fails() {
    for member in members() {
        let Body::Beam(beam) = &member.body else { panic!() };
        if beam.check().failed == Some(Check::WebCrushing) {
            let line = Mistake::OtherName.line(&member);
            let shear_holds = beam.shear <= beam.shear_capacity();
            assert_eq!(check_line(&member, &line).is_err(), shear_holds, "{beam:?}");
        }
    }
}

/// The exact inequality and the model's.
#[test]
fn the_claim_and_the_model_agree_about_webs() {
    for member in members() {
        let Body::Beam(beam) = &member.body else { panic!() };
        assert_eq!(web_fails(&member), !beam.is_within_web_limit(), "{beam:?}");
    }
}

/// A share of a later check is rejected where 6.3.1v fails, and not where it holds.
#[test]
fn later_shares_are_rejected_where_the_web_fails() {
    for (record, expected) in webs::examples() {
        let member = record.read().expect("an accepted beam");
        let Body::Beam(beam) = &member.body else { panic!() };
        let right = Utilization::expected(Ok(shares(&member)));
        assert!(agrees(&member, &right), "{expected}");
        for place in 1..4 {
            let mut other = right.clone();
            other.reached[place] = true;
            let is_taken = beam.is_within_web_limit();
            assert_eq!(agrees(&member, &other), is_taken, "{expected}, place {place}");
        }
    }
}
