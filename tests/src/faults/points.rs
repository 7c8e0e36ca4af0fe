//! The comparison notices mistakes about point loads.

use super::{line_of, put, Mistaken};
use crate::branches::Entry;
use crate::comparison::{Checker, Comparison, Model};
use crate::guard::{List, Words};
use crate::library::{BarTotals, Utilization};
use crate::make::record::place::beam::{AS, H, LOAD, SPAN};
use crate::make::words::{KIND, LOAD as LOAD_WORD, SPAN as SPAN_WORD};
use crate::make::{decode, encode, push_number, Random, Record};
use crate::model::beam::Beam;
use crate::model::built::{self, Built};
use crate::model::held::{self, WORDS};
use crate::model::member::{Body, Member};
use crate::model::outcome::{Check, Outcome};
use crate::model::schedule::{self, Refusal};
use crate::model::writing;
use crate::runs;

#[derive(Clone, Copy, Debug, Default, PartialEq)]
enum Mistake {
    #[default]
    None,
    /// λ is not held to at most 3.
    NotHeldAbove,
    /// λ is not held to at least 1.5.
    NotHeldBelow,
    /// λ for λ + 1.
    RatioAlone,
    /// 1.75·ft·b·h0 is rounded, too.
    RoundedTwice,
    /// Table 5.5.6 turns on the concrete part.
    TableOnThePart,
    /// The concrete part is kind 1's.
    Uniform,
    /// The utilization is kind 1's.
    UniformShares,
    /// The deflection is that of a load at midspan: 1/12 for 5/48.
    AtMidspan,
    /// a is to be below l0.
    BelowSpan,
    /// a is to be at most h0, not l0.
    DepthForSpan,
    /// Question 8 is not put to a.
    SpanNotAsked,
    /// 12001 is taken for 12000.
    OneTooFar,
    /// a is the number in the next place.
    NextPlace,
    /// Kind 5 is taken for kind 4.
    KindFive,
    /// Kind 1 has an a, too.
    LoadOfKindOne,
    /// a is left out of the written bytes.
    LoadNotWritten,
}

/// The outcome with 1/12 for the 5/48 of the deflection.
fn at_midspan(beam: &Beam, right: Outcome) -> Outcome {
    let [moment, shear, width, deflection] = *right.figures() else {
        return right;
    };
    let other = (4 * deflection).div_ceil(5);
    let mut outcome = Outcome::default();
    [moment, shear, width, other].into_iter().for_each(|figure| outcome.push(figure));
    if other * beam.deflection_divisor() > 100 * beam.span {
        return outcome.fails(Check::Deflection);
    }
    outcome
}

impl Mistake {
    /// λ as upper and lower number; the model has 3/2 and 3/1 where it holds a/h0.
    fn ratio(self, beam: &Beam, distance: u64) -> (u64, u64) {
        match (self, beam.shear_ratio(distance)) {
            (Mistake::NotHeldAbove, (3, 1)) => (distance, beam.h0()),
            (Mistake::NotHeldBelow, (3, 2)) => (distance, beam.h0()),
            (Mistake::RatioAlone, (upper, lower)) => (upper - lower, lower),
            (_, right) => right,
        }
    }

    /// The shear capacity of a point-loaded beam.
    fn capacity(self, beam: &Beam, distance: u64) -> u64 {
        let (upper, lower) = self.ratio(beam, distance);
        let force = 175 * beam.concrete.ft * beam.b * beam.h0();
        let concrete = match self {
            Mistake::RoundedTwice => force / 10_000 * lower / (upper + lower),
            Mistake::Uniform => beam.concrete_shear() / 1000,
            _ => force * lower / (10_000 * (upper + lower)),
        };
        beam.shear_capacity() - beam.concrete_part() + concrete
    }

    /// The checks of a point-loaded beam.
    fn checks(self, beam: &Beam, distance: u64) -> Outcome {
        let right = beam.check();
        let [moment, _, ..] = *right.figures() else {
            return right;
        };
        let mut outcome = Outcome::default();
        outcome.push(moment);
        let capacity = self.capacity(beam, distance);
        outcome.push(capacity);
        if capacity < beam.shear {
            return outcome.fails(Check::Shear);
        }
        let reduced = self == Mistake::TableOnThePart && beam.shear > beam.concrete_part();
        let shear = if reduced { beam.concrete_shear() / 1000 + 1 } else { beam.shear };
        let outcome = Beam { shear, ..*beam }.check_links(outcome);
        if self == Mistake::AtMidspan {
            return at_midspan(beam, outcome);
        }
        outcome
    }

    /// The member's line.
    fn line(self, member: &Member) -> String {
        let outcome = match &member.body {
            Body::Beam(beam) => match beam.load_distance {
                Some(distance) => self.checks(beam, distance),
                None => beam.check(),
            },
            _ => member.check(),
        };
        line_of(member, &outcome) + "\n"
    }

    /// Whether a member that the model accepts is refused by question 8.
    fn refuses(self, member: &Member) -> bool {
        let Body::Beam(beam) = &member.body else {
            return false;
        };
        let above = |most| beam.load_distance.is_some_and(|distance| distance > most);
        match self {
            Mistake::BelowSpan => above(beam.span - 1),
            Mistake::DepthForSpan => above(beam.h0()),
            _ => false,
        }
    }

    /// Question 8, put again to members that the model accepts.
    fn ask<'a>(self, members: impl Iterator<Item = &'a Member>) -> Result<(), Refusal> {
        match members.zip(1..).find(|(member, _)| self.refuses(member)) {
            Some((_, place)) => Err(Refusal { question: 8, member: place }),
            None => Ok(()),
        }
    }

    /// The kind that is taken for a member's.
    fn kind(self, kind: u32) -> u32 {
        match (self, kind) {
            (Mistake::KindFive, 5) | (Mistake::LoadOfKindOne, 1) => 4,
            _ => kind,
        }
    }

    /// What is taken for a in a beam's fields, where l0 and a have these places.
    fn load(self, fields: &[u32], span: usize, load: usize) -> u32 {
        let depth = fields[H].saturating_sub(fields[AS]);
        let (span, next, load) = (fields[span], fields[load + 1], fields[load]);
        match self {
            Mistake::DepthForSpan if load <= depth => load.min(span),
            Mistake::SpanNotAsked if load <= 12_000 => load.min(span),
            Mistake::OneTooFar if load == 12_001 => 12_000,
            Mistake::NextPlace => next,
            _ => load,
        }
    }

    /// The built member with what is taken for its kind and a.
    fn built(self, built: &Built) -> Built {
        let mut taken = Built { kind: self.kind(built.kind), ..*built };
        taken.fields[LOAD] = self.load(&built.fields, SPAN, LOAD);
        taken
    }

    /// The file with what is taken for its first member's kind, or for each a where it is refused.
    fn file(self, bytes: &[u8]) -> Vec<u8> {
        match (self, schedule::read(bytes)) {
            (Mistake::KindFive | Mistake::LoadOfKindOne, _) => self.with_kind(bytes),
            (_, Err(Refusal { question: 7 | 8, .. })) => self.with_loads(bytes),
            _ => bytes.to_vec(),
        }
    }

    /// The file with what is taken for its first member's kind.
    fn with_kind(self, bytes: &[u8]) -> Vec<u8> {
        let mut bytes = bytes.to_vec();
        let mark = bytes.iter().skip(1).position(|byte| *byte < 0x80);
        if let Some(kind) = mark.and_then(|mark| bytes.get_mut(mark + 2)) {
            *kind = self.kind(u32::from(*kind)) as u8;
        }
        bytes
    }

    /// The file, whose numbers are all there, with what is taken for each a.
    fn with_loads(self, bytes: &[u8]) -> Vec<u8> {
        let load = |record: &Record| u64::from(self.load(&record.fields, SPAN, LOAD));
        let records = decode(bytes).into_iter().map(|record| record.with(LOAD, load(&record)));
        encode(&records.collect::<Vec<Record>>())
    }

    /// The words with what is taken for their members' kinds and a.
    fn words(self, words: &[u32]) -> Vec<u32> {
        let mut words = words.to_vec();
        for member in words.chunks_exact_mut(WORDS) {
            member[KIND] = self.kind(member[KIND]);
            member[LOAD_WORD] = self.load(&member[2..], SPAN_WORD - 2, LOAD_WORD - 2);
        }
        words
    }
}

/// The bytes of a file without the a of any member.
fn without_loads(file: &[u8]) -> Vec<u8> {
    let records = decode(file);
    let mut bytes = Vec::new();
    push_number(&mut bytes, records.len() as u64);
    for record in records {
        let mut numbers = record.numbers();
        numbers.truncate(numbers.len() - usize::from(record.kind == 4));
        numbers.into_iter().for_each(|number| push_number(&mut bytes, u64::from(number)));
    }
    bytes
}

/// Longer than any written schedule.
const LONGEST: usize = 60_000;

impl Checker for Mistaken<Mistake> {
    fn report(&self, schedule: &[u8], out: &mut [u8]) -> Result<usize, Refusal> {
        let mistake = self.about(Entry::File);
        let members = schedule::read(&mistake.file(schedule))?;
        mistake.ask(members.iter())?;
        let lines = members.iter().map(|member| mistake.line(member));
        let text = format!("members {}\n", members.len()) + &lines.collect::<String>();
        put(text.as_bytes(), out, Refusal { question: 12, member: 0 })
    }

    fn member_report(
        &self,
        built: &Built,
        first: List,
        second: List,
        out: &mut [u8],
    ) -> Result<usize, Refusal> {
        let mistake = self.about(Entry::Built);
        let member = built::read(&mistake.built(built), first.readable(), second.readable())?;
        mistake.ask(std::iter::once(&member))?;
        put(mistake.line(&member).as_bytes(), out, Refusal { question: 12, member: 1 })
    }

    fn member_utilization(&self, built: &Built, first: List, second: List) -> Utilization {
        let answer = Model.member_utilization(built, first, second);
        if self.0 == Mistake::UniformShares && built.kind == 4 && answer.question == 0 {
            return Model.member_utilization(&Built { kind: 1, ..*built }, first, second);
        }
        answer
    }

    fn bar_totals(&self, groups: List, count: usize) -> BarTotals {
        Model.bar_totals(groups, count)
    }

    fn write_schedule(&self, words: Words, out: &mut [u8]) -> Result<usize, Refusal> {
        let mistake = self.about(Entry::Words);
        let taken = mistake.words(words.readable());
        let held = held::read(&taken, words.length())?;
        mistake.ask(held.iter().map(|held| &held.member))?;
        let mut file = vec![0; LONGEST];
        let length = writing::write_schedule(&taken, words.length(), &mut file)?;
        file.truncate(length);
        if mistake == Mistake::LoadNotWritten {
            file = without_loads(&file);
        }
        put(&file, out, Refusal { question: 13, member: 0 })
    }
}

/// What a run of point loads finds.
fn outcome(mistake: Mistake, entry: Entry) -> Result<(), String> {
    let random = Random::new(4);
    let mut comparison = Comparison::new(Mistaken(mistake, entry), &random);
    runs::points::point_loads(&mut comparison, &random, 5)
}

#[test]
fn a_checker_without_mistake_passes() {
    assert_eq!(outcome(Mistake::None, Entry::File), Ok(()));
}

#[test]
fn mistakes_about_point_loads_are_noticed() {
    let (file, built, words) = (Entry::File, Entry::Built, Entry::Words);
    let mistakes: [(Mistake, &[Entry]); 16] = [
        (Mistake::NotHeldAbove, &[file, built]),
        (Mistake::NotHeldBelow, &[file, built]),
        (Mistake::RatioAlone, &[file, built]),
        (Mistake::RoundedTwice, &[file, built]),
        (Mistake::TableOnThePart, &[file, built]),
        (Mistake::Uniform, &[file, built]),
        (Mistake::UniformShares, &[built]),
        (Mistake::AtMidspan, &[file, built]),
        (Mistake::BelowSpan, &[file, built, words]),
        (Mistake::DepthForSpan, &[file, built, words]),
        (Mistake::SpanNotAsked, &[file, built, words]),
        (Mistake::OneTooFar, &[file, built, words]),
        (Mistake::NextPlace, &[built, words]),
        (Mistake::KindFive, &[file, built, words]),
        (Mistake::LoadOfKindOne, &[file, built, words]),
        (Mistake::LoadNotWritten, &[words]),
    ];
    for (mistake, entries) in mistakes {
        for &entry in entries {
            let difference = outcome(mistake, entry).expect_err("a difference");
            let input = match entry {
                Entry::File => "schedule ",
                Entry::Built => "Record ",
                Entry::Words => "words ",
            };
            assert!(difference.starts_with(input), "{mistake:?}: {difference}");
        }
    }
}
