//! Document 01's beam 1 built by a caller: its line, its utilizations and the totals of its bars. Then the schedule on standard
//! input, reported. Then document 01's three members held as records: written, compared with standard input, reported; and
//! what the writer refuses. Then beam 1 as a point-loaded beam, built and held; with
//! Mq up to M and above; with V above what its web bears; of the strongest concrete that there is, and of one beyond.

use koxaltes::{
    Beam, Column, Group, Mesh, PointLoadedBeam, Question, Record, Refusal, LONGEST_FILE,
    LONGEST_REPORT, LONGEST_SCHEDULE, MOST_MEMBERS,
};
use std::io::Read;

const BEAM: Beam = Beam {
    b: 250,
    h: 500,
    bf: 250,
    hf: 0,
    tension_distance: 40,
    compression_distance: 0,
    concrete: 30,
    steel: 1,
    tension_groups: 1,
    compression_groups: 0,
    link_diameter: 8,
    legs: 2,
    link_spacing: 200,
    link_steel: 1,
    cover: 30,
    span: 6000,
    m: 150_000,
    mq: 90_000,
    v: 120_000,
    environment: 1,
    strict: 0,
};

const COLUMN: Column = Column {
    b: 400,
    h: 400,
    concrete: 30,
    steel: 1,
    groups: 1,
    link_diameter: 8,
    link_spacing: 250,
    l0: 4000,
    n: 2_500_000,
};

const MESH: Mesh = Mesh {
    family: 1,
    concrete: 30,
    diameter: 10,
    cross_bar: 1,
    paired: 0,
    apart: 0,
    seismic: 3,
    lap: 1,
    compression: 0,
    anchorage_given: 270,
    lap_given: 350,
};

const TENSION: [Group; 1] = [Group { diameter: 20, bars: 4 }];
const COLUMN_BARS: [Group; 1] = [Group { diameter: 20, bars: 8 }];

fn records() -> [Record; 3] {
    [BEAM.record(1, &TENSION, &[]), COLUMN.record(2, &COLUMN_BARS), MESH.record(3)]
}

fn print(answer: Result<&[u8], Refusal>) {
    match answer {
        Ok(text) => print!("{}", String::from_utf8_lossy(text)),
        Err(r) => println!("refused {} member {}", r.question, r.member),
    }
}

fn print_written(answer: Result<&[u8], Refusal>, schedule: &[u8]) {
    match answer {
        Ok(file) if file == schedule => println!("written {} bytes, as read", file.len()),
        Ok(file) => println!("written {} bytes, others than read", file.len()),
        Err(r) => println!("refused {} member {}", r.question, r.member),
    }
}

fn show_member(out: &mut [u8]) {
    print(koxaltes::member_report(&BEAM.member(1), &TENSION, &[], out));
    if let Ok(u) = koxaltes::member_utilization(&BEAM.member(1), &TENSION, &[]) {
        let [moment, shear, width, deflection] = u.places.map(|place| place.unwrap_or(f64::NAN));
        let governing = u.governing.unwrap_or(f64::NAN);
        println!("moment {moment:.3} shear {shear:.3} width {width:.3} deflection {deflection:.3} governing {governing:.3}");
    }
    if let Ok(t) = koxaltes::bar_totals(&TENSION, 1) {
        println!("bars {} area {}.{} mm2", t.bars, t.area / 10, t.area % 10);
    }
    // a count above its list
    let two_groups = Beam { tension_groups: 2, ..BEAM };
    let answer = koxaltes::member_report(&two_groups.member(1), &TENSION, &[], out);
    assert_eq!(answer.err().and_then(|r| r.named()), Some(Question::Field));
    print(answer);
}

fn show_records(schedule: &[u8], out: &mut [u8]) {
    let mut buffer = [0; LONGEST_FILE];
    let answer = koxaltes::write_schedule(&records(), &mut buffer);
    print_written(answer, schedule);
    let Ok(file) = answer else { return };
    print(koxaltes::report(file, out));
    // a buffer one byte short
    let mut short = vec![0; file.len() - 1];
    let answer = koxaltes::write_schedule(&records(), &mut short);
    assert_eq!(answer.err().and_then(|r| r.named()), Some(Question::File));
    print_written(answer, schedule);
    // more records than a schedule may have
    let many = vec![MESH.record(1); MOST_MEMBERS + 1];
    let answer = koxaltes::write_schedule(&many, &mut buffer);
    assert_eq!(answer.err().and_then(|r| r.named()), Some(Question::Count));
    print_written(answer, schedule);
}

/// The load is 1000 mm from the support.
fn show_point_load(out: &mut [u8]) {
    let mut buffer = [0; LONGEST_FILE];
    let loaded = PointLoadedBeam { beam: BEAM, load_distance: 1000 };
    print(koxaltes::member_report(&loaded.member(1), &TENSION, &[], out));
    let answer = koxaltes::write_schedule(&[loaded.record(1, &TENSION, &[])], &mut buffer);
    print(answer.and_then(|file| koxaltes::report(file, out)));
    // a load beyond the span
    let beyond = PointLoadedBeam { load_distance: 6001, ..loaded };
    let answer = koxaltes::write_schedule(&[beyond.record(1, &TENSION, &[])], &mut buffer);
    assert_eq!(answer.err().and_then(|r| r.named()), Some(Question::Consistency));
    print(answer);
}

/// Mq may be as large as M.
fn show_moments(out: &mut [u8]) {
    let equal = Beam { m: BEAM.mq, ..BEAM };
    print(koxaltes::member_report(&equal.member(1), &TENSION, &[], out));
    // one more
    let above = Beam { mq: BEAM.mq + 1, ..equal };
    let answer = koxaltes::member_report(&above.member(1), &TENSION, &[], out);
    assert_eq!(answer.err().and_then(|r| r.named()), Some(Question::ServiceMoment));
    print(answer);
    let exchanged = Beam { m: BEAM.mq, mq: BEAM.m, ..BEAM };
    print(koxaltes::write_schedule(&[exchanged.record(1, &TENSION, &[])], out));
}

/// The web crushes: a moment, no shear, neither in the line nor among the utilizations.
fn show_web(out: &mut [u8]) {
    let crushed = Beam { v: 411_126, ..BEAM };
    print(koxaltes::member_report(&crushed.member(1), &TENSION, &[], out));
    let utilization = koxaltes::member_utilization(&crushed.member(1), &TENSION, &[]);
    if let Ok([Some(moment), None, None, None]) = utilization.map(|u| u.places) {
        println!("moment {moment:.3} alone");
    }
}

/// The strongest concrete that there is, and one beyond.
fn show_grades(out: &mut [u8]) {
    let mut buffer = [0; LONGEST_FILE];
    let strongest = Beam { concrete: 80, ..BEAM };
    print(koxaltes::member_report(&strongest.member(1), &TENSION, &[], out));
    let column = Column { concrete: 80, ..COLUMN };
    let answer = koxaltes::write_schedule(&[column.record(2, &COLUMN_BARS)], &mut buffer);
    print(answer.and_then(|file| koxaltes::report(file, out)));
    // no such grade
    let beyond = Beam { concrete: 85, ..BEAM };
    let answer = koxaltes::member_report(&beyond.member(1), &TENSION, &[], out);
    assert_eq!(answer.err().and_then(|r| r.named()), Some(Question::Field));
    print(answer);
}

fn main() {
    let mut out = [0; LONGEST_REPORT];
    show_member(&mut out);
    // one byte more than a schedule may have, so that a longer one is refused and not cut
    let mut schedule = Vec::new();
    let mut input = std::io::stdin().take(LONGEST_SCHEDULE as u64 + 1);
    input.read_to_end(&mut schedule).expect("standard input is read");
    print(koxaltes::report(&schedule, &mut out));
    show_records(&schedule, &mut out);
    show_point_load(&mut out);
    show_moments(&mut out);
    show_web(&mut out);
    show_grades(&mut out);
}
