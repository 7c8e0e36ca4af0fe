//! What 6.3.1v is compared on: V at most β·βc·fc·b·h0 (document 02, wishes 6 and 7).

use super::{answered, members, Outcome};
use crate::branches::{Entry, ENTRIES};
use crate::comparison::{Checker, Comparison};
use crate::make::words::of_record;
use crate::make::{encode, webs, Random, Record};
use crate::model::held::WORDS;
use crate::model::report::{member_report, report};
use crate::model::schedule::Refusal;
use crate::model::utilization::{member_utilization, Shares};
use crate::model::writing::write_schedule;

/// Beams in every entry: written out with their lines, at every edge, and `count` times at random.
pub fn webs<C: Checker>(comparison: &mut Comparison<C>, random: &Random, count: u64) -> Outcome {
    for (record, expected) in webs::examples() {
        answered(comparison, random, &record, 0)?;
        example(comparison, random, &record, expected)?;
    }
    members(comparison, random, webs::directed())?;
    for _ in 0..count {
        members(comparison, random, webs::random_beams(random))?;
    }
    Ok(())
}

/// The model's line for the member that is given so.
fn line(record: &Record, entry: Entry, random: &Random) -> Result<String, Refusal> {
    let mut out = [0; 200];
    let length = match entry {
        Entry::File => report(&encode(std::slice::from_ref(record)), &mut out)?,
        Entry::Built => member_report(&record.built(), &record.first, &record.second, &mut out)?,
        Entry::Words => {
            let mut file = [0; 200];
            let length = write_schedule(&of_record(record, random), WORDS, &mut file)?;
            report(&file[..length], &mut out)?
        }
    };
    let text = String::from_utf8_lossy(&out[..length]);
    Ok(text.lines().last().unwrap_or_default().to_string())
}

/// A beam whose line must be this in every entry, and whose shares must stand where its figures do.
fn example<C: Checker>(
    comparison: &mut Comparison<C>,
    random: &Random,
    record: &Record,
    expected: &str,
) -> Outcome {
    let is_named = expected.starts_with("6.3.1v ");
    let marked = format!("{} {expected}", record.mark);
    for entry in ENTRIES {
        let found = line(record, entry, random);
        if found.as_ref() != Ok(&marked) {
            return Err(format!("{record:?}\nmodel: {found:?}, not {marked}"));
        }
        if is_named {
            comparison.tally.note_web_named(record.kind, entry);
        }
    }
    let shares = shares_beside(record, expected)?;
    if is_named && matches!(shares, [Some(_), None, None, None]) {
        comparison.tally.note_moment_share(record.kind);
    }
    Ok(())
}

/// The model's shares of a beam: one in each place where this line, which is without its mark, has a figure.
fn shares_beside(record: &Record, line: &str) -> Result<Shares, String> {
    let answer = member_utilization(&record.built(), &record.first, &record.second);
    let Ok(shares) = answer else {
        return Err(format!("{record:?}\nmodel: no shares, {answer:?}"));
    };
    let figures = line.split(' ').skip(1).map(|word| word != "-");
    if !shares.iter().map(Option::is_some).eq(figures) {
        return Err(format!("{record:?}\nmodel: shares {shares:?} beside {line}"));
    }
    Ok(shares)
}
