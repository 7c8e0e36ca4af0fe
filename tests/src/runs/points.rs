//! What point-loaded beams are compared on (document 02, wish 3).

use super::{members, refused, Outcome};
use crate::branches::{Entry, ENTRIES};
use crate::comparison::{Checker, Comparison};
use crate::make::flaws::flaw;
use crate::make::record::place::beam::{LOAD, SPAN};
use crate::make::words::{of_record, LOAD as LOAD_WORD};
use crate::make::{encode, points, random_beam, random_point_loaded, Random, Record};
use crate::model::built;
use crate::model::held::{self, WORDS};

/// Beams of every sort; `count` of them at random.
pub fn point_loads<C: Checker>(
    comparison: &mut Comparison<C>,
    random: &Random,
    count: u64,
) -> Outcome {
    members(comparison, random, points::directed())?;
    members(comparison, random, points::of_equalities())?;
    for record in points::at_edges() {
        answered(comparison, random, &record, 0)?;
    }
    for (record, question) in points::refused() {
        answered(comparison, random, &record, question)?;
    }
    refused_files(comparison)?;
    no_effect(comparison, random)?;
    for _ in 0..count {
        flawed(comparison, random)?;
        twins(comparison, random)?;
        members(comparison, random, points::turning(&random_beam(random)))?;
    }
    Ok(())
}

/// A member that every entry is to refuse by this question, or to accept, where it is 0.
fn answered<C: Checker>(
    comparison: &mut Comparison<C>,
    random: &Random,
    record: &Record,
    expected: u32,
) -> Outcome {
    super::answered(comparison, random, record, expected)?;
    for entry in ENTRIES {
        comparison.tally.note_answer(record, entry, expected);
    }
    Ok(())
}

/// A random point-loaded beam with a no to each of its questions, and as kind 5.
fn flawed<C: Checker>(comparison: &mut Comparison<C>, random: &Random) -> Outcome {
    let base = random_point_loaded(random);
    if base.read().is_none() {
        return Ok(());
    }
    for question in [7, 8, 9, 10, 14] {
        let mut record = base.clone();
        if flaw(&mut record, question, random) {
            answered(comparison, random, &record, question)?;
        }
    }
    answered(comparison, random, &Record { kind: 5, ..base }, 6)
}

/// Files that end before a, in it or after it.
fn refused_files<C: Checker>(comparison: &mut Comparison<C>) -> Outcome {
    for (file, expected) in points::refused_files() {
        refused(comparison, &file, expected)?;
        comparison.tally.note_refused_file(expected.question);
    }
    Ok(())
}

/// Beams of kind 1 with numbers where kind 4 has its a.
fn no_effect<C: Checker>(comparison: &mut Comparison<C>, random: &Random) -> Outcome {
    for record in points::examples() {
        let span = record.fields[SPAN];
        for number in [0, 1, span, span + 1, 12_000, 12_001, u32::MAX] {
            same_member(comparison, random, &record, number)?;
        }
    }
    Ok(())
}

/// A beam of kind 1 that is the same member whatever number stands in the place of a.
fn same_member<C: Checker>(
    comparison: &mut Comparison<C>,
    random: &Random,
    record: &Record,
    number: u32,
) -> Outcome {
    let other = record.with(LOAD, u64::from(number));
    let words = of_record(record, random);
    let mut other_words = words.clone();
    other_words[LOAD_WORD] = number;
    comparison.built(&other)?;
    comparison.words(&other_words)?;
    let built = |record: &Record| built::read(&record.built(), &record.first, &record.second).ok();
    let held = |words| held::read(words, WORDS).ok();
    if built(record) != built(&other) || held(&words) != held(&other_words) {
        return Err(format!("{other:?}\nmodel: not the member without that number"));
    }
    comparison.tally.note_no_effect(&other, Entry::Built);
    comparison.tally.note_no_effect(&other, Entry::Words);
    Ok(())
}

/// A beam of kind 1 and the beam of kind 4 with a = 0: the same line, other bytes.
fn twins<C: Checker>(comparison: &mut Comparison<C>, random: &Random) -> Outcome {
    let uniform = random_beam(random);
    let loaded = uniform.point_loaded(0);
    let (Some(one), Some(four)) = (uniform.read(), loaded.read()) else {
        return Ok(());
    };
    let bytes = [&uniform, &loaded].map(|record| encode(std::slice::from_ref(record)));
    if one.check() != four.check() || one == four || bytes[0] == bytes[1] {
        return Err(format!("{uniform:?}\nmodel: kinds 1 and 4, a = 0"));
    }
    for record in [&uniform, &loaded] {
        comparison.built(record)?;
        comparison.words(&of_record(record, random))?;
        comparison.records(std::slice::from_ref(record))?;
    }
    comparison.tally.note_twins();
    Ok(())
}
