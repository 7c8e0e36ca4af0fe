//! Document 01's printed schedule and tabled cases, and what the requests add.

mod grades;
mod moments;
mod points;
mod webs;
mod written;

use std::path::Path;

use crate::make::beams::every_cover;
use crate::make::{encode, vectors, Record};
use crate::model::built::{totals, Group};
use crate::model::member::{Body, Member};
use crate::model::report::{refusal_text, report};
use crate::model::schedule;

/// The report program's output.
fn printed(schedule: &[u8]) -> String {
    let mut out = [0; 1000];
    match report(schedule, &mut out) {
        Ok(length) => String::from_utf8(out[..length].to_vec()).unwrap(),
        Err(refusal) => refusal_text(refusal),
    }
}

fn line(record: &Record) -> String {
    printed(&encode(std::slice::from_ref(record))).lines().nth(1).unwrap().to_string()
}

fn member(record: &Record) -> Member {
    schedule::read(&encode(std::slice::from_ref(record))).unwrap()[0]
}

fn beam() -> Record {
    Record::beam(
        1,
        [250, 500, 250, 0, 40, 0, 30, 1],
        &[(20, 4)],
        &[],
        [8, 2, 200, 1, 30, 6000, 150_000, 90_000, 120_000, 1, 0],
    )
}

fn column() -> Record {
    Record::column(2, [400, 400, 30, 1], &[(20, 8)], [8, 250, 4000, 2_500_000])
}

fn mesh() -> Record {
    Record::mesh(3, [1, 30, 10, 1, 0, 0, 3, 1, 0, 270, 350])
}

#[test]
fn printed_schedule() {
    let expected = "members 3\n1 OK 179495 177587 172 1885\n2 OK 2816134 - - -\n3 OK 263 342 - -\n";
    assert_eq!(printed(&encode(&[beam(), column(), mesh()])), expected);
    assert_eq!(printed(&[0]), "members 0\n");
}

/// What the crates that run the report program store beside their inputs.
#[test]
fn stored_runs() {
    let crates = Path::new(env!("CARGO_MANIFEST_DIR")).join("../crates");
    let read = |name: &str, file: &str| std::fs::read(crates.join(name).join(file)).unwrap();
    for name in [
        "cage_report",
        "run_no_members",
        "run_500_members",
        "run_refused",
        "run_longest_input",
        "run_too_long",
    ] {
        assert_eq!(vectors::printed(&read(name, "stdin")), read(name, "stdout"), "{name}");
    }
}

#[test]
fn refusals() {
    let mut narrow = column();
    narrow.fields[0] = 299;
    assert_eq!(printed(&encode(&[beam(), narrow, mesh()])), "refused 7 member 2\n");
    assert_eq!(printed(&[]), "refused 2 member 0\n");
    assert_eq!(printed(&[0x80, 0]), "refused 3 member 0\n");
    assert_eq!(printed(&[0x80; 4]), "refused 2 member 0\n");
    assert_eq!(printed(&[0x80; 5]), "refused 3 member 0\n");
    assert_eq!(printed(&[0xff, 0xff, 0xff, 0xff, 0x0f]), "refused 4 member 0\n");
    assert_eq!(printed(&[0xff, 0xff, 0xff, 0xff, 0x10]), "refused 3 member 0\n");
    assert_eq!(printed(&[0xf5, 3]), "refused 4 member 0\n");
    assert_eq!(printed(&[0xf4, 3]), "refused 2 member 1\n");
    assert_eq!(printed(&[0, 0]), "refused 11 member 0\n");
    assert_eq!(printed(&[0; 60_000]), "refused 11 member 0\n");
    assert_eq!(printed(&[0; 60_001]), "refused 1 member 0\n");
}

#[test]
fn short_buffer() {
    let schedule = encode(&[beam(), column(), mesh()]);
    let text = printed(&schedule);
    let mut out = vec![7; text.len() - 1];
    let refusal = report(&schedule, &mut out).unwrap_err();
    assert_eq!((refusal.question, refusal.member), (12, 0));
    assert!(out.iter().all(|&byte| byte == 7));
    let mut out = vec![7; text.len()];
    assert_eq!(report(&schedule, &mut out), Ok(text.len()));
    assert_eq!(out, text.as_bytes());
}

#[test]
fn shear() {
    let mut record = beam();
    record.fields[18] = 177_587;
    assert!(line(&record).starts_with("1 OK "));
    record.fields[18] = 177_588;
    assert_eq!(line(&record), "1 4.3.3 179495 177587 - -");
}

#[test]
fn spacing() {
    let mut record = beam();
    record.fields[12] = 201;
    assert_eq!(line(&record), "1 5.5.6s 179495 177276 - -");
}

#[test]
fn axial() {
    let mut record = column();
    record.fields[8] = 2_816_134;
    assert_eq!(line(&record), "2 OK 2816134 - - -");
    record.fields[8] = 2_816_135;
    assert_eq!(line(&record), "2 4.2.4 2816134 - - -");
}

#[test]
fn lap() {
    let mut record = mesh();
    record.fields[10] = 341;
    assert_eq!(line(&record), "3 5.3.7 263 342 - -");
}

/// Document 02, wish 1: 48 diameters at C25 for anchorage without cross bar and flat laps, and nowhere else.
#[test]
fn works_multiple() {
    // Family 2 of 10 mm: concrete, cross bar, lapping, the lengths given, and the line.
    let cases = [
        (25, 0, 2, 480, 624, "3 OK 480 624 - -"),
        (25, 0, 2, 481, 625, "3 OK 480 624 - -"),
        (25, 0, 2, 479, 624, "3 5.2.5 480 - - -"),
        (25, 0, 2, 480, 623, "3 5.3.7 480 624 - -"),
        (25, 0, 1, 480, 442, "3 OK 480 442 - -"),
        (25, 0, 1, 480, 443, "3 OK 480 442 - -"),
        (25, 0, 1, 480, 441, "3 5.3.7 480 442 - -"),
        (25, 1, 2, 340, 624, "3 OK 340 624 - -"),
        (25, 1, 1, 340, 442, "3 OK 340 442 - -"),
        (20, 0, 2, 550, 715, "3 OK 550 715 - -"),
        (30, 0, 2, 430, 559, "3 OK 430 559 - -"),
        (30, 0, 2, 429, 559, "3 5.2.5 430 - - -"),
    ];
    for (concrete, cross, lapping, anchorage, lap, expected) in cases {
        let fields = [2, concrete, 10, cross, 0, 0, 0, lapping, 0, anchorage, lap];
        assert_eq!(line(&Record::mesh(3, fields)), expected);
    }
}

#[test]
fn slenderness() {
    let mut record = column();
    for (length, hundredths) in [(3200, 100), (20_000, 19)] {
        record.fields[7] = length;
        let Body::Column(column) = member(&record).body else { panic!() };
        assert_eq!(column.stability(), hundredths * 2 * column.b);
    }
    record.fields[7] = 20_001;
    assert_eq!(line(&record), "2 4.2.4s - - - -");
}

/// A cover below 20 mm has the width of 20 mm, one above 65 mm that of 65 mm (4.4.2).
#[test]
fn held_cover() {
    let width = |record: &Record| member(record).check().figures()[2];
    let widths: Vec<u64> = every_cover().iter().map(width).collect();
    // 19·1347914·K/(2·10^9) rounded up, where K is 190 times the cover held, and 12223
    let tabled =
        [(15, 206), (19, 206), (20, 206), (21, 208), (64, 313), (65, 315), (66, 315), (199, 315)];
    for (cover, width) in tabled {
        assert_eq!(widths[cover - 15], width, "{cover}");
    }
}

#[test]
fn span_limits() {
    let mut record = beam();
    for (span, limit) in [(6999, 3499), (7000, 2800), (9000, 3600), (9001, 3000)] {
        record.fields[15] = span;
        let Body::Beam(beam) = member(&record).body else { panic!() };
        assert_eq!(100 * beam.span / beam.deflection_divisor(), limit);
    }
}

/// Number of bars, area, n·d and n·d² of the first groups of a list, or the question and its member.
fn totals_of(list: &[(u32, u32)], count: usize) -> Result<[u64; 4], (u32, u32)> {
    let list: Vec<Group> = list.iter().map(|&(diameter, bars)| Group { diameter, bars }).collect();
    match totals(&list, count) {
        Ok(bars) => Ok([u64::from(bars.count), bars.area, bars.diameters, bars.squares]),
        Err(refusal) => Err((refusal.question, refusal.member)),
    }
}

#[test]
fn totals_of_lists() {
    assert_eq!(totals_of(&[(20, 4)], 1), Ok([4, 12_568, 80, 1600]));
    assert_eq!(totals_of(&[(20, 8), (6, 1)], 2), Ok([9, 25_419, 166, 3236]));
    assert_eq!(totals_of(&[(50, 20); 5], 4), Ok([80, 1_570_800, 4000, 200_000]));
    assert_eq!(totals_of(&[(25, 2), (5, 1)], 1), Ok([2, 9818, 50, 1250]));
    assert_eq!(totals_of(&[], 0), Ok([0; 4]));
    assert_eq!(totals_of(&[(7, 0)], 0), Ok([0; 4]));
    for group in [(5, 1), (7, 1), (51, 1), (20, 0), (20, 21)] {
        assert_eq!(totals_of(&[(20, 4), group], 2), Err((7, 1)));
    }
    assert_eq!(totals_of(&[(20, 4)], 2), Err((7, 1)));
    assert_eq!(totals_of(&[(20, 4); 5], 5), Err((7, 1)));
    assert_eq!(totals_of(&[(20, 4)], (1 << 32) + 1), Err((7, 1)));
    assert_eq!(totals_of(&[(20, 4)], usize::MAX), Err((7, 1)));
}
