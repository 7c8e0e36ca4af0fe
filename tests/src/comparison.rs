//! Holds a checker against the model: answers, whole buffers, utilizations, totals, and demand 3.

mod written;

use crate::branches::Tally;
use crate::claim;
use crate::guard::{Guarded, List, Words};
use crate::library::{self, BarTotals, Utilization};
use crate::make::{encode, Random, Record};
use crate::model::built::{self, Built, Group};
use crate::model::member::Member;
use crate::model::outcome::{Check, Outcome};
use crate::model::report;
use crate::model::schedule::{self, Refusal};
use crate::model::utilization;
use crate::model::writing;

/// The five entries that are compared.
pub trait Checker {
    fn report(&self, schedule: &[u8], out: &mut [u8]) -> Result<usize, Refusal>;
    fn member_report(
        &self,
        built: &Built,
        first: List,
        second: List,
        out: &mut [u8],
    ) -> Result<usize, Refusal>;
    fn member_utilization(&self, built: &Built, first: List, second: List) -> Utilization;
    fn bar_totals(&self, groups: List, count: usize) -> BarTotals;
    fn write_schedule(&self, words: Words, out: &mut [u8]) -> Result<usize, Refusal>;
}

/// The static library.
pub struct Library;

impl Checker for Library {
    fn report(&self, schedule: &[u8], out: &mut [u8]) -> Result<usize, Refusal> {
        library::report(schedule, out)
    }

    fn member_report(
        &self,
        built: &Built,
        first: List,
        second: List,
        out: &mut [u8],
    ) -> Result<usize, Refusal> {
        library::member_report(built, first, second, out)
    }

    fn member_utilization(&self, built: &Built, first: List, second: List) -> Utilization {
        library::member_utilization(built, first, second)
    }

    fn bar_totals(&self, groups: List, count: usize) -> BarTotals {
        library::bar_totals(groups, count)
    }

    fn write_schedule(&self, words: Words, out: &mut [u8]) -> Result<usize, Refusal> {
        library::write_schedule(words, out)
    }
}

/// The model itself. What can be read of a list is all that it needs.
pub struct Model;

impl Checker for Model {
    fn report(&self, schedule: &[u8], out: &mut [u8]) -> Result<usize, Refusal> {
        report::report(schedule, out)
    }

    fn member_report(
        &self,
        built: &Built,
        first: List,
        second: List,
        out: &mut [u8],
    ) -> Result<usize, Refusal> {
        report::member_report(built, first.readable(), second.readable(), out)
    }

    fn member_utilization(&self, built: &Built, first: List, second: List) -> Utilization {
        let (first, second) = (first.readable(), second.readable());
        Utilization::expected(utilization::member_utilization(built, first, second))
    }

    fn bar_totals(&self, groups: List, count: usize) -> BarTotals {
        BarTotals::expected(built::totals(groups.readable(), count))
    }

    fn write_schedule(&self, words: Words, out: &mut [u8]) -> Result<usize, Refusal> {
        writing::write_schedule(words.readable(), words.length(), out)
    }
}

/// Numbers of answers: by question, and 0 for a written text or schedule.
pub type Answers = [u64; 15];

/// A comparison under way; each method yields a description of the first difference.
pub struct Comparison<'a, C> {
    checker: C,
    random: &'a Random,
    junk: Vec<u8>,
    /// Where the checker's inputs lie: a schedule, words or the two lists, then the output.
    guards: [Guarded; 3],
    pub tally: Tally,
    /// The writer's cases.
    pub writer_tally: Tally,
    pub schedules: u64,
    pub members: u64,
    pub built: u64,
    pub lists: u64,
    /// Lists of members that the writer was given as words, accepted or not.
    pub word_lists: u64,
    /// Accepted schedules, each written again from its members.
    pub written: u64,
    pub calls: u64,
    pub schedule_answers: Answers,
    pub built_answers: Answers,
    pub utilization_answers: Answers,
    pub totals_answers: Answers,
    pub writer_answers: Answers,
}

/// Longer than any report and any compared schedule.
const LONGEST: usize = 128_000;

/// What can be read of a list, and its length.
type Lending<'a> = (&'a [Group], usize);

/// The ways to lend a list: all of it; the groups that the count names and no more; the same groups
/// of a longer list, whose rest cannot be read; of one whose length is 0 in its low half. A list
/// shorter than the count is lent whole.
fn lendings(groups: &[Group], count: usize) -> [Lending<'_>; 4] {
    let whole = (groups, groups.len());
    match groups.get(..count) {
        Some(named) => [whole, (named, count), (named, groups.len() + 1), (named, 1 << 32)],
        None => [whole; 4],
    }
}

/// The ways to lend a built member's lists.
fn both_lendings(record: &Record) -> impl Iterator<Item = (Lending<'_>, Lending<'_>)> {
    let [first, second] = record.counts();
    lendings(&record.first, first).into_iter().zip(lendings(&record.second, second))
}

/// The question answered no, or 0.
fn question(answer: Result<usize, Refusal>) -> usize {
    answer.map_or_else(|refusal| refusal.question as usize, |_| 0)
}

fn hex(bytes: &[u8]) -> String {
    bytes.iter().map(|byte| format!("{byte:02x}")).collect()
}

fn shown(answer: Result<usize, Refusal>, buffer: &[u8]) -> String {
    match answer {
        Ok(length) => {
            let bytes = &buffer[..length.min(buffer.len())];
            let is_text = bytes.iter().all(|byte| matches!(byte, b' '..=b'~' | b'\n'));
            let text = if is_text { String::from_utf8_lossy(bytes).into() } else { hex(bytes) };
            format!("{length} bytes:\n{text}")
        }
        Err(Refusal { question, member }) => format!("refused {question} member {member}"),
    }
}

/// A difference between two answers or buffers, if there is one.
fn difference(
    input: impl Fn() -> String,
    model: (Result<usize, Refusal>, &[u8]),
    checker: (Result<usize, Refusal>, &[u8]),
) -> Result<(), String> {
    if model == checker {
        return Ok(());
    }
    let at = model.1.iter().zip(checker.1).position(|(a, b)| a != b);
    Err(format!(
        "{}\nroom {}\nmodel: {}\nchecker: {}\nbuffers differ first at {at:?}",
        input(),
        model.1.len(),
        shown(model.0, model.1),
        shown(checker.0, checker.1)
    ))
}

impl<'a, C: Checker> Comparison<'a, C> {
    pub fn new(checker: C, random: &'a Random) -> Self {
        Comparison {
            checker,
            random,
            junk: random.junk(2 * LONGEST),
            guards: std::array::from_fn(|_| Guarded::new(LONGEST)),
            tally: Tally::default(),
            writer_tally: Tally::default(),
            schedules: 0,
            members: 0,
            built: 0,
            lists: 0,
            word_lists: 0,
            written: 0,
            calls: 0,
            schedule_answers: [0; 15],
            built_answers: [0; 15],
            utilization_answers: [0; 15],
            totals_answers: [0; 15],
            writer_answers: [0; 15],
        }
    }

    /// A buffer filled with junk.
    fn buffer(&self, room: usize) -> Vec<u8> {
        let start = self.random.below((self.junk.len() - room) as u64 + 1) as usize;
        self.junk[start..start + room].to_vec()
    }

    /// Rooms to try for a text of this length: enough, exact, one less, none, more.
    fn rooms(&self, length: usize) -> Vec<usize> {
        let between = self.random.below(length as u64) as usize;
        let beyond = length + 1 + self.random.below(300) as usize;
        vec![length, length - 1, 0, between, beyond, LONGEST.min(length * 100)]
    }

    /// One schedule with every room; an accepted one is written again from its members.
    pub fn schedule(&mut self, bytes: &[u8]) -> Result<(), String> {
        self.schedules += 1;
        let mut text = self.buffer(LONGEST);
        let answer = report::report(bytes, &mut text);
        let rooms = match answer {
            Ok(length) => self.rooms(length),
            Err(_) => vec![self.random.below(400) as usize],
        };
        for room in rooms {
            self.schedule_in(bytes, room)?;
        }
        if let Ok(length) = answer {
            self.accepted(bytes, &text[..length])?;
            self.written_again(bytes)?;
        }
        Ok(())
    }

    /// One schedule with a buffer of this length.
    fn schedule_in(&mut self, bytes: &[u8], room: usize) -> Result<(), String> {
        let mut expected = self.buffer(room);
        let [source, out, _] = &mut self.guards;
        let source = source.copy(bytes);
        let found = out.copy(&expected);
        let model = report::report(bytes, &mut expected);
        let checker = self.checker.report(source, found);
        self.calls += 1;
        self.schedule_answers[question(model)] += 1;
        let input = || format!("schedule {}", hex(bytes));
        difference(input, (model, &expected), (checker, found))?;
        if bytes == source {
            Ok(())
        } else {
            Err(format!("{} was changed", input()))
        }
    }

    /// Demand 3 of an accepted schedule's text, and the cases that it reached.
    fn accepted(&mut self, bytes: &[u8], text: &[u8]) -> Result<(), String> {
        let members = schedule::read(bytes).map_err(|_| "refused after all".to_string())?;
        self.members += members.len() as u64;
        for member in &members {
            self.tally.note(member, &member.check());
        }
        claim::check_report(&members, text).map_err(|reason| {
            let text = String::from_utf8_lossy(text);
            format!("demand 3: {reason}\nschedule {}\n{text}", hex(bytes))
        })
    }

    /// A schedule of these records.
    pub fn records(&mut self, records: &[Record]) -> Result<(), String> {
        self.schedule(&encode(records))
    }

    /// One built member with every room, and its utilization.
    pub fn built(&mut self, record: &Record) -> Result<(), String> {
        self.built += 1;
        let built = record.built();
        let (first, second) = (record.first.as_slice(), record.second.as_slice());
        let mut text = self.buffer(200);
        let answer = report::member_report(&built, first, second, &mut text);
        let rooms = match answer {
            Ok(length) => self.rooms(length),
            Err(_) => vec![self.random.below(200) as usize],
        };
        for room in rooms {
            self.built_in(record, room)?;
        }
        if let Ok(length) = answer {
            let line = String::from_utf8_lossy(&text[..length - 1]).into_owned();
            let member = built::read(&built, first, second).map_err(|_| "refused after all")?;
            claim::check_line(&member, &line)
                .map_err(|reason| format!("demand 3: {reason}\n{record:?}\n{line}"))?;
        }
        self.utilization(record)
    }

    /// One built member with a buffer of this length.
    fn built_in(&mut self, record: &Record, room: usize) -> Result<(), String> {
        let built = record.built();
        let before = self.buffer(room);
        let mut expected = before.clone();
        let model = report::member_report(&built, &record.first, &record.second, &mut expected);
        self.built_answers[question(model)] += 1;
        let [first, second, out] = &mut self.guards;
        for (one, other) in both_lendings(record) {
            let (first, second) = (first.list(one), second.list(other));
            let found = out.copy(&before);
            let checker = self.checker.member_report(&built, first, second, found);
            self.calls += 1;
            let input = || format!("{record:?}\nlent {one:?} and {other:?}");
            difference(input, (model, &expected), (checker, found))?;
        }
        Ok(())
    }

    fn utilization(&mut self, record: &Record) -> Result<(), String> {
        let built = record.built();
        let answer = utilization::member_utilization(&built, &record.first, &record.second);
        let model = Utilization::expected(answer);
        self.utilization_answers[model.question as usize] += 1;
        let [first, second, _] = &mut self.guards;
        for (one, other) in both_lendings(record) {
            let (first, second) = (first.list(one), second.list(other));
            let checker = self.checker.member_utilization(&built, first, second);
            self.calls += 1;
            if model != checker {
                let input = format!("{record:?}\nlent {one:?} and {other:?}");
                return Err(format!("{input}\nmodel: {model:?}\nchecker: {checker:?}"));
            }
        }
        match built::read(&built, &record.first, &record.second) {
            Ok(member) if !agrees(&member, &model) => {
                Err(format!("{record:?}\na share and its check disagree: {model:?}"))
            }
            _ => Ok(()),
        }
    }

    /// The totals of the first `count` groups of a list.
    pub fn list(&mut self, groups: &[Group], count: usize) -> Result<(), String> {
        self.lists += 1;
        let model = BarTotals::expected(built::totals(groups, count));
        self.totals_answers[model.question as usize] += 1;
        let [list, ..] = &mut self.guards;
        for lending in lendings(groups, count) {
            let checker = self.checker.bar_totals(list.list(lending), count);
            self.calls += 1;
            if model != checker {
                let input = format!("{count} of {groups:?}\nlent {lending:?}");
                return Err(format!("{input}\nmodel: {model:?}\nchecker: {checker:?}"));
            }
        }
        Ok(())
    }
}

/// Whether each share is at most 1.0 exactly where its check holds, and none after the moment's stands where 6.3.1v fails.
pub fn agrees(member: &Member, utilization: &Utilization) -> bool {
    if claim::web_fails(member) && utilization.reached[1..].contains(&true) {
        return false;
    }
    let outcome = member.check();
    let figures = outcome.figures().len();
    (0..figures).all(|place| {
        let share = f64::from_bits(utilization.shares[place]);
        let holds = place + 1 < figures || !fails_by_figure(&outcome);
        !utilization.reached[place] || (share <= 1.0) == holds
    })
}

/// Whether the failed check is the one of the last figure.
fn fails_by_figure(outcome: &Outcome) -> bool {
    matches!(
        outcome.failed,
        Some(
            Check::Moment
                | Check::MomentShallow
                | Check::Shear
                | Check::CrackWidth
                | Check::Deflection
                | Check::Axial
                | Check::Anchorage
                | Check::Lap
        )
    )
}
