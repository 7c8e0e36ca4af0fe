//! Compares the static library with the model: `compare [seed] [multiplier]`.

use std::process::ExitCode;
use std::time::Instant;

use koxaltes_tests::branches::{
    required, required_of_grades, required_of_moments, required_of_point_loads, required_of_webs,
    required_of_writer, Tally,
};
use koxaltes_tests::comparison::{Answers, Checker, Comparison, Library};
use koxaltes_tests::make::Random;
use koxaltes_tests::runs;

fn argument(place: usize) -> u64 {
    let argument = std::env::args().nth(place);
    argument.map_or(1, |text| text.parse().expect("a number"))
}

fn print_answers(title: &str, answers: &Answers) {
    println!("{title}: written {}", answers[0]);
    for (question, count) in answers.iter().enumerate().skip(1).filter(|(_, count)| **count > 0) {
        println!("  refused {question:2}: {count}");
    }
}

fn print_table<C: Checker>(comparison: &Comparison<C>) {
    print_answers("schedule reports", &comparison.schedule_answers);
    print_answers("built member reports", &comparison.built_answers);
    print_answers("built member utilizations", &comparison.utilization_answers);
    print_answers("totals of lists", &comparison.totals_answers);
    print_answers("schedules from members", &comparison.writer_answers);
    println!("lists of members as words: {}", comparison.word_lists);
    println!("members of accepted schedules: {}", comparison.members);
    println!("calls: {}", comparison.calls);
    print_cases("cases reached by them", &comparison.tally);
    print_cases("cases of the writer", &comparison.writer_tally);
}

fn print_cases(title: &str, tally: &Tally) {
    println!("{title}:");
    for ((about, variant), count) in tally.iter() {
        println!("  {about:43} {variant:6} {count:8}");
    }
}

/// Questions and cases that were not reached.
fn gaps<C: Checker>(comparison: &Comparison<C>) -> Vec<String> {
    let mut missing = comparison.tally.missing(required());
    missing.extend(comparison.tally.missing(required_of_point_loads()));
    missing.extend(comparison.tally.missing(required_of_moments()));
    missing.extend(comparison.tally.missing(required_of_webs()));
    missing.extend(comparison.tally.missing(required_of_grades()));
    missing.extend(comparison.writer_tally.missing(required_of_writer()));
    let mut gaps: Vec<String> = missing.iter().map(|case| format!("case {case:?}")).collect();
    let lists = [
        ("schedules", &comparison.schedule_answers, (0..=12).chain([14]).collect()),
        ("built members", &comparison.built_answers, vec![0, 5, 6, 7, 8, 9, 10, 12, 14]),
        ("utilizations", &comparison.utilization_answers, vec![0, 5, 6, 7, 8, 9, 10, 14]),
        ("lists", &comparison.totals_answers, vec![0, 7]),
        ("writer", &comparison.writer_answers, vec![0, 4, 5, 6, 7, 8, 9, 10, 13, 14]),
    ];
    for (name, answers, questions) in lists {
        let few = questions.into_iter().filter(|&question| answers[question] < 20);
        gaps.extend(few.map(|question| format!("{name}: answer {question} came too seldom")));
    }
    gaps
}

fn main() -> ExitCode {
    let (seed, multiplier) = (argument(1), argument(2));
    println!("seed {seed}, multiplier {multiplier}");
    let start = Instant::now();
    let random = Random::new(seed);
    let mut comparison = Comparison::new(Library, &random);
    let outcome = runs::all(&mut comparison, &random, multiplier);
    print_table(&comparison);
    if let Err(difference) = outcome {
        println!("first difference:\n{difference}");
        return ExitCode::FAILURE;
    }
    let gaps = gaps(&comparison);
    if !gaps.is_empty() {
        println!("not reached: {gaps:#?}");
        return ExitCode::FAILURE;
    }
    let cases = [
        required(),
        required_of_point_loads(),
        required_of_moments(),
        required_of_webs(),
        required_of_grades(),
        required_of_writer(),
    ];
    let cases: usize = cases.iter().map(Vec::len).sum();
    println!("{cases} cases required, all reached; {:.1?}", start.elapsed());
    println!(
        "compared {} schedules, {} built members, {} lists and {} written schedules: all equal",
        comparison.schedules, comparison.built, comparison.lists, comparison.written
    );
    ExitCode::SUCCESS
}
