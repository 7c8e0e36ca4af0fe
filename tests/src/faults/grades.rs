//! The comparison notices mistakes about the grades, and so does the claim.

use std::sync::LazyLock;

use super::{line_of, put, Mistaken};
use crate::branches::{Entry, ENTRIES};
use crate::claim::{check_line, web_fails};
use crate::comparison::{Checker, Comparison, Model};
use crate::guard::{List, Words};
use crate::library::{BarTotals, Utilization};
use crate::make::beams::GRADES;
use crate::make::grades::{self, place_of_grade, with_grade};
use crate::make::words::KIND;
use crate::make::{decode, encode, Random};
use crate::model::beam::Beam;
use crate::model::built::{self, Built};
use crate::model::column::Column;
use crate::model::held::{self, WORDS};
use crate::model::member::{Body, Member};
use crate::model::mesh::Mesh;
use crate::model::outcome::{Check, Outcome};
use crate::model::parameters::{limit_of, Ratio};
use crate::model::schedule::{self, Refusal};
use crate::model::tables::{self, Concrete};
use crate::model::writing::write_schedule;
use crate::runs;

#[derive(Clone, Copy, Debug, Default, PartialEq)]
enum Mistake {
    #[default]
    None,
    /// α1 is left out.
    NoStress,
    /// α1 is left out of t ≥ 2·a'·k alone.
    NoStressInChoice,
    /// α1 is left out of 4.2.2-3 alone.
    NoStressInDepth,
    /// α1 is left out of 4.2.2's capacity alone.
    NoStressInCapacity,
    /// α1 is the next grade's.
    StressOfNext,
    /// α1 multiplies fc in a column, too.
    StressInColumn,
    /// βc is left out.
    NoWeb,
    /// βc is the next grade's.
    WebOfNext,
    /// α1 stands in βc's place.
    StressForWeb,
    /// β1 is the next grade's.
    BlockOfNext,
    /// εcu is the next grade's.
    StrainOfNext,
    /// GB's limit at C50.
    FormulaAt50,
    /// GB's limit at every grade.
    FormulaBelow,
    /// e at every grade.
    TableAbove,
    /// GB's limit in thousandths, rounded down.
    RoundedLimit,
    /// The strengths of the next grade.
    RowOfNext,
    /// The strengths of the grade before.
    RowOfBefore,
    /// The strengths of C60 and C65 exchanged.
    Exchanged,
    /// Meshes above C40 with the multiple of C35.
    LargerMultiple,
    /// Meshes of family 2 above C40 with the multiple of family 1.
    SmallerMultiple,
    /// Question 7 takes this grade for C80.
    Takes(u32),
    /// Question 7 refuses this grade.
    Refuses(u32),
}

/// The row of `grade` with the strengths of another.
fn row(grade: u32, strengths: u32) -> Concrete {
    let strengths = tables::concrete(u64::from(strengths)).expect("a grade");
    Concrete { grade: u64::from(grade), ..*strengths }
}

/// Each grade but C80 with the strengths of the next.
static OF_NEXT: LazyLock<Vec<Concrete>> =
    LazyLock::new(|| GRADES.windows(2).map(|pair| row(pair[0], pair[1])).collect());
/// Each grade but C20 with the strengths of the one before.
static OF_BEFORE: LazyLock<Vec<Concrete>> =
    LazyLock::new(|| GRADES.windows(2).map(|pair| row(pair[1], pair[0])).collect());
/// C50 with the strengths of each grade: no factor, and e.
static AS_C50: LazyLock<Vec<Concrete>> =
    LazyLock::new(|| GRADES.iter().map(|&grade| row(50, grade)).collect());

/// The place of a grade in the table.
fn place(concrete: &Concrete) -> usize {
    concrete.grade as usize / 5 - 4
}

fn concrete(member: &Member) -> &'static Concrete {
    match &member.body {
        Body::Beam(beam) => beam.concrete,
        Body::Column(column) => column.concrete,
        Body::Mesh(mesh) => mesh.concrete,
    }
}

/// The member with another row.
fn with_row(member: &Member, concrete: &'static Concrete) -> Member {
    let body = match member.body {
        Body::Beam(beam) => Body::Beam(Beam { concrete, ..beam }),
        Body::Column(column) => Body::Column(Column { concrete, ..column }),
        Body::Mesh(mesh) => Body::Mesh(Mesh { concrete, ..mesh }),
    };
    Member { body, ..*member }
}

impl Mistake {
    /// The row that is taken for a grade's.
    fn row(self, concrete: &'static Concrete) -> &'static Concrete {
        match (self, concrete.grade) {
            (Mistake::RowOfNext, ..80) | (Mistake::Exchanged, 60) => &OF_NEXT[place(concrete)],
            (Mistake::RowOfBefore, 25..) | (Mistake::Exchanged, 65) => {
                &OF_BEFORE[place(concrete) - 1]
            }
            _ => concrete,
        }
    }

    /// α1 in hundredths, where leaving it out is this mistake.
    fn stress(self, grade: u64, left_out: Mistake) -> u64 {
        let above = grade.saturating_sub(50);
        match self {
            Mistake::NoStress => 100,
            mistake if mistake == left_out => 100,
            Mistake::StressOfNext if above > 0 => 99 - above / 5,
            _ => 100 - above / 5,
        }
    }

    /// k in thousandths of N/mm.
    fn block_force(self, beam: &Beam, left_out: Mistake) -> u64 {
        self.stress(beam.concrete.grade, left_out) * beam.concrete.fc * beam.b
    }

    /// βc.
    fn web(self, grade: u64) -> Ratio {
        let above = grade.saturating_sub(50);
        match self {
            Mistake::NoWeb => (1, 1),
            Mistake::WebOfNext if above > 0 => (145 - above, 150),
            Mistake::StressForWeb => (100 - above / 5, 100),
            _ => (150 - above, 150),
        }
    }

    /// What 4.2.2-3 allows of h0.
    fn depth(self, beam: &Beam) -> Ratio {
        let above = beam.concrete.grade.saturating_sub(50);
        let block = if self == Mistake::BlockOfNext { 395 - above } else { 400 - above };
        let strain = if self == Mistake::StrainOfNext { 325 - above } else { 330 - above };
        let formula = limit_of((block, 500), strain, beam.steel.fy);
        let by_table = match self {
            Mistake::FormulaAt50 => beam.concrete.grade < 50,
            Mistake::FormulaBelow => false,
            Mistake::TableAbove => true,
            _ => above == 0,
        };
        match self {
            _ if by_table => (beam.steel.depth, 100),
            Mistake::RoundedLimit => (1000 * formula.0 / formula.1, 1000),
            _ => formula,
        }
    }

    /// Whether 4.2.2-3 is taken to hold.
    fn is_within_depth(self, beam: &Beam) -> bool {
        let (upper, lower) = self.depth(beam);
        let limit = upper * beam.h0() * self.block_force(beam, Mistake::NoStressInDepth);
        100 * lower as i64 * beam.net_force() <= limit as i64
    }

    /// 4.2.2 or 4.2.3, and the capacity.
    fn moment(self, beam: &Beam) -> (Check, u64) {
        let edge = 2 * beam.cover_compression * self.block_force(beam, Mistake::NoStressInChoice);
        let lever = beam.h0() - beam.cover_compression;
        let (tension, compression) =
            (beam.steel.fy * beam.tension.area, beam.steel.fy * beam.compression.area);
        if beam.compression.area > 0 && 100 * beam.net_force() < edge as i64 {
            return (Check::MomentShallow, tension * lever / 10_000);
        }
        let block = u128::from(self.block_force(beam, Mistake::NoStressInCapacity));
        let t = u128::from(tension - compression);
        let without_block = t * u128::from(beam.h0()) + u128::from(compression * lever);
        let capacity = (block * without_block).saturating_sub(50 * t * t) / (10_000 * block);
        (Check::Moment, capacity as u64)
    }

    /// The checks of a beam.
    fn beam(self, beam: &Beam) -> Outcome {
        let mut outcome = Outcome::default();
        if !beam.has_minimum_steel() {
            return outcome.fails(Check::MinimumSteel);
        }
        if !self.is_within_depth(beam) {
            return outcome.fails(Check::DepthLimit);
        }
        let (check, capacity) = self.moment(beam);
        outcome.push(capacity);
        if capacity < beam.moment {
            return outcome.fails(check);
        }
        let ((upper, lower), web) = (beam.unreduced_web_limit(), self.web(beam.concrete.grade));
        if web.1 * lower * beam.shear > web.0 * upper {
            return outcome.fails(Check::WebCrushing);
        }
        let capacity = beam.shear_capacity();
        outcome.push(capacity);
        if capacity < beam.shear {
            return outcome.fails(Check::Shear);
        }
        beam.check_links(outcome)
    }

    /// The checks of a column.
    fn column(self, column: &Column) -> Outcome {
        let right = column.check();
        if self != Mistake::StressInColumn || right.figures().is_empty() {
            return right;
        }
        let steel = 10 * column.steel.axial * column.bars.area;
        let stress = self.stress(column.concrete.grade, Mistake::None);
        let squash = stress * (column.squash_load() - steel) / 100 + steel;
        let capacity = 9 * column.stability() * squash / (200_000 * column.b);
        let mut outcome = Outcome::default();
        outcome.push(capacity);
        if capacity < column.axial {
            return outcome.fails(Check::Axial);
        }
        outcome
    }

    /// The checks of a mesh.
    fn mesh(self, mesh: &Mesh) -> Outcome {
        let mut other = *mesh;
        match self {
            _ if mesh.concrete.grade <= 40 => {}
            Mistake::LargerMultiple => other.concrete = tables::concrete(35).expect("a grade"),
            Mistake::SmallerMultiple => other.family = 1,
            _ => {}
        }
        other.check()
    }

    /// The member's line without its newline.
    fn line(self, member: &Member) -> String {
        let outcome = match with_row(member, self.row(concrete(member))).body {
            Body::Beam(beam) => self.beam(&beam),
            Body::Column(column) => self.column(&column),
            Body::Mesh(mesh) => self.mesh(&mesh),
        };
        line_of(member, &outcome)
    }

    /// The grade that is read where this one is given.
    fn read(self, grade: u32) -> u32 {
        if self == Mistake::Takes(grade) {
            80
        } else {
            grade
        }
    }

    /// The refusal of the first member that should be accepted.
    fn refuses<'a>(self, members: impl Iterator<Item = &'a Member>) -> Result<(), Refusal> {
        for (member, place) in members.zip(1..) {
            if self == Mistake::Refuses(concrete(member).grade as u32) {
                return Err(Refusal { question: 7, member: place });
            }
        }
        Ok(())
    }

    /// The built member as it is read.
    fn built(self, built: &Built) -> Built {
        let mut built = *built;
        let place = place_of_grade(built.kind);
        built.fields[place] = self.read(built.fields[place]);
        built
    }
}

impl Checker for Mistaken<Mistake> {
    fn report(&self, schedule: &[u8], out: &mut [u8]) -> Result<usize, Refusal> {
        let mistake = self.about(Entry::File);
        let records = decode(schedule);
        let read = |record| with_grade(record, mistake.read(grades::grade(record)));
        let read: Vec<_> = records.iter().map(read).collect();
        let members = schedule::read(&encode(&read))?;
        mistake.refuses(members.iter())?;
        let lines = members.iter().map(|member| mistake.line(member) + "\n");
        let text = format!("members {}\n", members.len()) + &lines.collect::<String>();
        put(text.as_bytes(), out, Refusal { question: 12, member: 0 })
    }

    fn member_report(
        &self,
        built: &Built,
        first: List,
        second: List,
        out: &mut [u8],
    ) -> Result<usize, Refusal> {
        let mistake = self.about(Entry::Built);
        let member = built::read(&mistake.built(built), first.readable(), second.readable())?;
        mistake.refuses([&member].into_iter())?;
        let line = mistake.line(&member) + "\n";
        put(line.as_bytes(), out, Refusal { question: 12, member: 1 })
    }

    fn member_utilization(&self, built: &Built, first: List, second: List) -> Utilization {
        Model.member_utilization(built, first, second)
    }

    fn bar_totals(&self, groups: List, count: usize) -> BarTotals {
        Model.bar_totals(groups, count)
    }

    fn write_schedule(&self, words: Words, out: &mut [u8]) -> Result<usize, Refusal> {
        let mistake = self.about(Entry::Words);
        let mut read = words.readable().to_vec();
        for member in read.chunks_exact_mut(WORDS) {
            let place = 2 + place_of_grade(member[KIND]);
            member[place] = mistake.read(member[place]);
        }
        let members = held::read(&read, words.length())?;
        mistake.refuses(members.iter().map(|held| &held.member))?;
        write_schedule(&read, words.length(), out)
    }
}

/// What a run of the grades finds.
fn outcome(mistake: Mistake, entry: Entry) -> Result<(), String> {
    let random = Random::new(7);
    let mut comparison = Comparison::new(Mistaken(mistake, entry), &random);
    runs::grades::grades(&mut comparison, &random, 1)
}

#[test]
fn a_checker_without_mistake_passes() {
    assert_eq!(outcome(Mistake::None, Entry::File), Ok(()));
}

/// Mistakes in a member's line.
const IN_LINES: [Mistake; 20] = [
    Mistake::NoStress,
    Mistake::NoStressInChoice,
    Mistake::NoStressInDepth,
    Mistake::NoStressInCapacity,
    Mistake::StressOfNext,
    Mistake::StressInColumn,
    Mistake::NoWeb,
    Mistake::WebOfNext,
    Mistake::StressForWeb,
    Mistake::BlockOfNext,
    Mistake::StrainOfNext,
    Mistake::FormulaAt50,
    Mistake::FormulaBelow,
    Mistake::TableAbove,
    Mistake::RoundedLimit,
    Mistake::RowOfNext,
    Mistake::RowOfBefore,
    Mistake::Exchanged,
    Mistake::LargerMultiple,
    Mistake::SmallerMultiple,
];

#[test]
fn mistakes_about_grades_are_noticed() {
    for mistake in IN_LINES {
        for (entry, input) in [(Entry::File, "schedule "), (Entry::Built, "Record ")] {
            let difference = outcome(mistake, entry).expect_err("a difference");
            assert!(difference.starts_with(input), "{mistake:?}: {difference}");
        }
    }
}

#[test]
fn mistakes_about_question_7_are_noticed() {
    let taken = grades::REFUSED.map(Mistake::Takes);
    let refused = GRADES.map(Mistake::Refuses);
    for mistake in taken.into_iter().chain(refused) {
        for entry in ENTRIES {
            let difference = outcome(mistake, entry).expect_err("a difference");
            let input = match entry {
                Entry::File => "schedule ",
                Entry::Built => "Record ",
                Entry::Words => "words ",
            };
            assert!(difference.starts_with(input), "{mistake:?}: {difference}");
        }
    }
}

/// The members at the edges.
fn members() -> Vec<Member> {
    grades::directed().iter().filter_map(|record| record.read()).collect()
}

/// The grades at which a mistake is one.
fn grades_of(mistake: Mistake) -> Vec<u64> {
    let range = match mistake {
        Mistake::FormulaAt50 => 50..=50,
        Mistake::FormulaBelow => 20..=50,
        Mistake::RowOfNext => 20..=75,
        Mistake::RowOfBefore => 25..=80,
        Mistake::Exchanged => 60..=65,
        Mistake::LargerMultiple | Mistake::SmallerMultiple => 45..=80,
        _ => 55..=80,
    };
    GRADES.map(u64::from).into_iter().filter(|grade| range.contains(grade)).collect()
}

/// The claim alone rejects each mistake at each grade, and takes the lines without mistake.
#[test]
fn the_claim_rejects_mistakes_about_each_grade() {
    let members = members();
    for member in &members {
        assert_eq!(check_line(member, &Mistake::None.line(member)), Ok(()));
    }
    for mistake in IN_LINES {
        for grade in grades_of(mistake) {
            let mut of_grade = members.iter().filter(|member| concrete(member).grade == grade);
            let is_rejected = |member: &Member| {
                let line = mistake.line(member);
                line != Mistake::None.line(member) && check_line(member, &line).is_err()
            };
            assert!(of_grade.any(is_rejected), "{mistake:?} at C{grade}");
        }
    }
}

/// A claim without the factors, and with e, would reject right lines at each grade above C50: by the figure's k, by the
/// depth limit and by 6.3.1v.
#[test]
fn the_factors_of_the_claim_matter() {
    let members = members();
    for grade in [55, 60, 65, 70, 75, 80] {
        let of_grade = members.iter().filter(|member| concrete(member).grade == grade);
        let mut reasons = Vec::new();
        for member in of_grade {
            let plain = with_row(member, &AS_C50[place(concrete(member))]);
            reasons.extend(check_line(&plain, &Mistake::None.line(member)).err());
            if web_fails(member) && !web_fails(&plain) {
                reasons.push("6.3.1v".to_string());
            }
        }
        for reason in ["in place 0 is too far off", "4.2.2-3 is named", "6.3.1v"] {
            assert!(reasons.iter().any(|text| text.contains(reason)), "{reason} at C{grade}");
        }
    }
}
