//! Times the static library against the model on the same inputs, and its stack use.

use std::hint::black_box;

use koxaltes_tests::comparison::{Checker, Comparison, Library, Model};
use koxaltes_tests::guard::List;
use koxaltes_tests::make::words::of_file;
use koxaltes_tests::make::{self, base, encode, Random, Record};
use koxaltes_tests::measure::{interleaved, stack_use, Rounds, Timing, LONG, SHORT};
use koxaltes_tests::model::built::Built;

const ROOM: usize = 64_000;

/// Members of the kinds 1 to 3 that are accepted and wanted, with rising marks.
fn chosen(random: &Random, count: usize, wanted: impl Fn(&Record) -> bool) -> Vec<Record> {
    chosen_of(base::random_member, random, count, wanted)
}

/// Members drawn so, accepted and wanted, with rising marks.
fn chosen_of(
    draw: impl Fn(&Random) -> Record,
    random: &Random,
    count: usize,
    wanted: impl Fn(&Record) -> bool,
) -> Vec<Record> {
    let mut records = Vec::new();
    while records.len() < count {
        let record = draw(random);
        if wanted(&record) && record.read().is_some() {
            records.push(record);
        }
    }
    make::renumber(random, &mut records);
    records
}

/// Whether a record is of the kind and passes all its checks, so that all figures are worked.
fn passes(record: &Record, kind: u32) -> bool {
    record.kind == kind && record.read().is_some_and(|member| member.check().failed.is_none())
}

/// Point-loaded beams, OK. They are drawn apart, so that the other inputs stay as they are.
fn point_loaded(count: usize) -> Vec<u8> {
    let beam = |record: &Record| passes(record, 4);
    encode(&chosen_of(make::random_point_loaded, &Random::new(4), count, beam))
}

/// Schedules that one call after the other reads, and the members in all of them.
struct Input {
    name: &'static str,
    schedules: Vec<Vec<u8>>,
    members: usize,
}

fn inputs(random: &Random) -> Vec<Input> {
    let mixed = encode(&chosen(random, 500, |_| true));
    let of_kind = |kind, count| encode(&chosen(random, count, |record| passes(record, kind)));
    let mut many = mixed.clone();
    many[0] |= 0x7f;
    let mut unfinished = mixed.clone();
    *unfinished.last_mut().expect("not empty") |= 0x80;
    let one = |name, schedule, members| Input { name, schedules: vec![schedule], members };
    vec![
        one("(a) 500 members of mixed kinds", mixed, 500),
        one("(b) 1 beam, OK", of_kind(1, 1), 1),
        one("(b) 1 column, OK", of_kind(2, 1), 1),
        one("(b) 1 mesh, OK", of_kind(3, 1), 1),
        one("(c) refused at the count (511)", many, 1),
        one("(d) 500 members, refused at the last byte", unfinished, 500),
        one("(e) 500 beams, OK", of_kind(1, 500), 500),
        one("(f) 500 columns, OK", of_kind(2, 500), 500),
        one("(g) 500 meshes, OK", of_kind(3, 500), 500),
        Input {
            name: "(h) 20 schedules as (a), one after the other",
            schedules: (0..20).map(|_| encode(&chosen(random, 500, |_| true))).collect(),
            members: 10_000,
        },
        one("(k) 500 point-loaded beams, OK", point_loaded(500), 500),
    ]
}

fn print_head(title: &str) {
    println!(
        "\n{title:44} {:>11} {:>11} {:>9} {:>9} {:>6} {:>11} {:>11} {:>6}",
        "library", "model", "/member", "/member", "ratio", "library", "model", "ratio"
    );
}

fn print_row(name: &str, members: usize, timing: &Timing) {
    let each = members as f64;
    println!(
        "{name:44} {:11.1} {:11.1} {:9.1} {:9.1} {:6.2} {:11.1} {:11.1} {:6.2}",
        timing.first,
        timing.second,
        timing.first / each,
        timing.second / each,
        timing.ratio,
        timing.first_least,
        timing.second_least,
        timing.first_least / timing.second_least
    );
}

fn read_all(checker: &dyn Checker, schedules: &[Vec<u8>], out: &mut [u8]) {
    for bytes in schedules {
        let _ = black_box(checker.report(black_box(bytes), black_box(out)));
    }
}

fn time_schedules(rounds: &Rounds, input: &Input) {
    let (mut left, mut right) = (vec![0; ROOM], vec![0; ROOM]);
    let mut library = || read_all(&Library, &input.schedules, &mut left);
    let mut model = || read_all(&Model, &input.schedules, &mut right);
    let timing = interleaved(rounds, &mut library, &mut model);
    print_row(input.name, input.members, &timing);
}

/// Members that a caller built, one after the other.
struct Members {
    name: &'static str,
    records: Vec<Record>,
}

/// A record as an entry takes it.
fn lent(record: &Record) -> (Built, List<'_>, List<'_>) {
    (record.built(), record.first.as_slice().into(), record.second.as_slice().into())
}

fn time_built(members: &Members) {
    let (mut left, mut right) = ([0; 200], [0; 200]);
    let built: Vec<_> = members.records.iter().map(lent).collect();
    let lines = |checker: &dyn Checker, out: &mut [u8]| {
        for (built, first, second) in black_box(&built) {
            let _ = black_box(checker.member_report(built, *first, *second, out));
        }
    };
    let mut library = || lines(&Library, &mut left);
    let timing = interleaved(&SHORT, &mut library, &mut || lines(&Model, &mut right));
    print_row(&format!("{}, line", members.name), built.len(), &timing);
    let utilizations = |checker: &dyn Checker| {
        for (built, first, second) in black_box(&built) {
            black_box(checker.member_utilization(built, *first, *second));
        }
    };
    let mut library = || utilizations(&Library);
    let timing = interleaved(&SHORT, &mut library, &mut || utilizations(&Model));
    print_row(&format!("{}, utilization", members.name), built.len(), &timing);
}

/// Members held as words, which are written into a buffer with room for any such schedule.
struct Held {
    name: &'static str,
    words: Vec<u32>,
    members: usize,
}

/// The members of inputs (a) and (e).
fn held(inputs: &[Input], random: &Random) -> [Held; 2] {
    let written = |name, place: usize| {
        let Input { schedules, members, .. } = &inputs[place];
        Held { name, words: of_file(&schedules[0], random), members: *members }
    };
    [written("(i) 500 members of mixed kinds, written", 0), written("(j) 500 beams, written", 6)]
}

fn write(checker: &dyn Checker, words: &[u32], out: &mut [u8]) {
    let _ = black_box(checker.write_schedule(black_box(words).into(), black_box(out)));
}

fn time_writing(rounds: &Rounds, held: &Held) {
    let (mut left, mut right) = (vec![0; ROOM], vec![0; ROOM]);
    let mut library = || write(&Library, &held.words, &mut left);
    let mut model = || write(&Model, &held.words, &mut right);
    let timing = interleaved(rounds, &mut library, &mut model);
    print_row(held.name, held.members, &timing);
}

fn print_stack(inputs: &[Input], members: &[Members], held: &[Held]) {
    let mut out = vec![0; ROOM];
    println!("\nstack overwritten by a call, bytes (the caller's frame included)");
    println!("{:44} {:>12} {:>12}", "", "library", "model");
    let empty = stack_use(&mut || ());
    println!("{:44} {empty:12} {empty:12}", "no call");
    for input in inputs {
        let mut of = |checker: &dyn Checker| {
            stack_use(&mut || read_all(checker, &input.schedules, &mut out))
        };
        println!("{:44} {:12} {:12}", input.name, of(&Library), of(&Model));
    }
    for Members { name, records } in members {
        let (built, first, second) = lent(&records[0]);
        let mut of = |checker: &dyn Checker| {
            stack_use(&mut || {
                let _ = black_box(checker.member_report(&built, first, second, &mut out));
            })
        };
        println!("{:44} {:12} {:12}", format!("{name}, line"), of(&Library), of(&Model));
        let of = |checker: &dyn Checker| {
            stack_use(&mut || {
                black_box(checker.member_utilization(&built, first, second));
            })
        };
        println!("{:44} {:12} {:12}", format!("{name}, utilization"), of(&Library), of(&Model));
    }
    for Held { name, words, .. } in held {
        let mut of = |checker: &dyn Checker| stack_use(&mut || write(checker, words, &mut out));
        println!("{name:44} {:12} {:12}", of(&Library), of(&Model));
    }
}

fn members(random: &Random) -> [Members; 6] {
    let built = |name, kind, count| Members {
        name,
        records: chosen(random, count, |record| passes(record, kind)),
    };
    [
        built("1 built beam", 1, 1),
        built("1 built column", 2, 1),
        built("1 built mesh", 3, 1),
        built("500 built beams", 1, 500),
        built("500 built columns", 2, 500),
        built("500 built meshes", 3, 500),
    ]
}

/// Stops where the outputs are not equal.
fn compare(random: &Random, inputs: &[Input], members: &[Members], held: &[Held]) {
    let mut comparison = Comparison::new(Library, random);
    for bytes in inputs.iter().flat_map(|input| &input.schedules) {
        comparison.schedule(bytes).expect("equal outputs");
    }
    for record in members.iter().flat_map(|members| &members.records) {
        comparison.built(record).expect("equal outputs");
    }
    for held in held {
        comparison.words(&held.words).expect("equal outputs");
    }
}

fn main() {
    let random = Random::new(1);
    let inputs = inputs(&random);
    let members = members(&random);
    let held = held(&inputs, &random);
    compare(&random, &inputs, &members, &held);
    println!("outputs are equal; rounds interleaved; no buffer is cleared between calls");
    println!("the library allocates nothing: it links no allocator; the model keeps one Vec");
    println!("ns per call and per member: medians, then the least of the rounds");
    print_head("short rounds, a tenth of a millisecond");
    for input in &inputs {
        time_schedules(&SHORT, input);
    }
    for members in &members {
        time_built(members);
    }
    held.iter().for_each(|held| time_writing(&SHORT, held));
    print_head("long rounds, ten milliseconds");
    for input in &inputs {
        time_schedules(&LONG, input);
    }
    held.iter().for_each(|held| time_writing(&LONG, held));
    print_stack(&inputs, &members[..3], &held);
}
