//! Concrete up to C80: document 02, wish 7.

use super::{beam, column, line, member, mesh, printed};
use crate::claim::check_line;
use crate::make::grades::{each_kind, refused, with_grade, REFUSED};
use crate::make::record::place::beam::*;
use crate::make::record::place::column as column_place;
use crate::make::words::of_records;
use crate::make::{encode, Random, Record};
use crate::model::parameters::{Parameters, Ratio};
use crate::model::report::member_report;
use crate::model::tables;
use crate::model::utilization::member_utilization;
use crate::model::writing::write_schedule;

/// Grades, and the figures of beam 1.
const BEAM_1: [(u32, &str); 13] = [
    (20, "165478 151022 191 2106"),
    (25, "173721 164707 181 1985"),
    (30, "179495 177587 172 1885"),
    (35, "183610 188857 164 1808"),
    (40, "186690 200127 156 1742"),
    (45, "188722 207372 151 1695"),
    (50, "190402 214617 145 1646"),
    (55, "191780 220252 141 1606"),
    (60, "192934 226692 136 1571"),
    (65, "193914 230717 133 1543"),
    (70, "194714 234742 130 1521"),
    (75, "195375 237962 128 1499"),
    (80, "195993 241182 125 1478"),
];

#[test]
fn beam_by_grade() {
    for (grade, figures) in BEAM_1 {
        let record = with_grade(&beam(), grade);
        assert_eq!(line(&record), format!("1 OK {figures}"));
        assert_eq!(check_line(&member(&record), &line(&record)), Ok(()));
        let capacity: u64 = figures.split(' ').next().unwrap().parse().unwrap();
        assert!(line(&record.with(MOMENT, capacity)).starts_with("1 OK "));
        let above = line(&record.with(MOMENT, capacity + 1));
        assert_eq!(above, format!("1 4.2.2 {capacity} - - -"));
    }
}

/// Grades with α1 in hundredths, βc, and the depth limits of both steels.
const PARAMETERS: [(u64, u64, Ratio, [Ratio; 2]); 8] = [
    (20, 100, (1, 1), [(52, 100), (48, 100)]),
    (50, 100, (1, 1), [(52, 100), (48, 100)]),
    (55, 99, (29, 30), [(1027, 2020), (1027, 2170)]),
    (60, 98, (14, 15), [(312, 625), (2496, 5375)]),
    (65, 97, (9, 10), [(49, 100), (1617, 3550)]),
    (70, 96, (13, 15), [(589, 1225), (2356, 5275)]),
    (75, 95, (5, 6), [(183, 388), (183, 418)]),
    (80, 94, (4, 5), [(37, 80), (148, 345)]),
];

#[test]
fn parameters() {
    let equal = |one: Ratio, other: Ratio| one.0 * other.1 == one.1 * other.0;
    for (grade, stress, web, limits) in PARAMETERS {
        for (steel, limit) in [1, 2].into_iter().zip(limits) {
            let concrete = tables::concrete(grade).unwrap();
            let found = Parameters::of(concrete, tables::steel(steel).unwrap());
            assert_eq!(found.stress, stress);
            assert!(equal(found.web, web), "{found:?}");
            assert!(equal(found.depth, limit), "{found:?}");
        }
    }
}

/// Grades, and the most bars of 20 mm in beam 1's section with each steel. With 15 question 10 says no.
const MOST_BARS: [(u32, [u32; 2]); 13] = [
    (20, [5, 3]),
    (25, [6, 4]),
    (30, [7, 5]),
    (35, [8, 6]),
    (40, [10, 7]),
    (45, [11, 8]),
    (50, [12, 9]),
    (55, [12, 9]),
    (60, [13, 10]),
    (65, [14, 11]),
    (70, [14, 11]),
    (75, [14, 11]),
    (80, [14, 12]),
];

#[test]
fn most_bars() {
    for (grade, most) in MOST_BARS {
        for (steel, bars) in [1, 2].into_iter().zip(most) {
            let mut record = with_grade(&beam(), grade).with(STEEL, steel);
            record = record.with(MOMENT, 1).with(MOMENT_QUASI, 1);
            record.first[0].bars = bars;
            assert!(line(&record).starts_with("1 OK "), "{record:?}");
            record.first[0].bars = bars + 1;
            let text = printed(&encode(std::slice::from_ref(&record)));
            let expected =
                if bars < 14 { "members 1\n1 4.2.2-3 - - - -\n" } else { "refused 10 member 1\n" };
            assert_eq!(text, expected);
        }
    }
}

/// Grade and steel; bars of 28 mm; a' with which 4.2.2 is right, and one mm less than 4.2.3's; both capacities. Without
/// α1 in 2·a'·k, 4.2.3 would come before that a' above C50.
const BORDERS: [(u32, u64, u32, u64, [u64; 2]); 6] = [
    (50, 1, 7, 106, [1_387_193, 1_385_771]),
    (50, 2, 6, 108, [1_432_354, 1_432_049]),
    (55, 1, 8, 112, [1_573_867, 1_573_098]),
    (55, 2, 7, 118, [1_653_447, 1_651_972]),
    (80, 1, 10, 105, [1_983_110, 1_981_890]),
    (80, 2, 9, 114, [2_135_535, 2_133_608]),
];

#[test]
fn choice_of_the_check() {
    for (grade, steel, bars, distance, capacities) in BORDERS {
        let head = [300, 1040, 300, 0, 40, 100, grade, steel as u32];
        let tail = [12, 4, 100, 2, 25, 2000, 1, 1, 0, 1, 0];
        let record = Record::beam(1, head, &[(28, bars)], &[(12, 2)], tail);
        let named = [("4.2.2", distance), ("4.2.3", distance + 1)];
        for ((name, distance), capacity) in named.into_iter().zip(capacities) {
            let above = record.with(A2, distance).with(MOMENT, capacity + 1);
            assert_eq!(line(&above), format!("1 {name} {capacity} - - -"));
            let at = above.with(MOMENT, capacity);
            assert!(line(&at).starts_with(&format!("1 OK {capacity} ")));
        }
    }
}

/// Grades, and the capacities of column 2 with each steel: no α1.
const COLUMN_2: [(u32, [u64; 2]); 9] = [
    (30, [2_816_134, 2_904_814]),
    (45, [3_775_750, 3_864_430]),
    (50, [4_057_990, 4_146_670]),
    (55, [4_368_454, 4_457_134]),
    (60, [4_678_918, 4_767_598]),
    (65, [4_989_382, 5_078_062]),
    (70, [5_285_734, 5_374_414]),
    (75, [5_567_974, 5_656_654]),
    (80, [5_864_326, 5_953_006]),
];

#[test]
fn column_by_grade() {
    for (grade, capacities) in COLUMN_2 {
        for (steel, capacity) in [1, 2].into_iter().zip(capacities) {
            let record = with_grade(&column(), grade).with(column_place::STEEL, steel);
            let at = record.with(column_place::AXIAL, capacity);
            let above = record.with(column_place::AXIAL, capacity + 1);
            assert_eq!(line(&at), format!("2 OK {capacity} - - -"));
            assert_eq!(line(&above), format!("2 4.2.4 {capacity} - - -"));
        }
    }
}

/// Mesh 3 above C40 has C40's multiple.
#[test]
fn mesh_by_grade() {
    for grade in [40, 45, 50, 55, 60, 65, 70, 75, 80] {
        assert_eq!(line(&with_grade(&mesh(), grade)), "3 OK 221 287 - -");
    }
}

#[test]
fn refused_grades() {
    for record in refused() {
        assert_eq!(printed(&encode(&[record])), "refused 7 member 1\n");
    }
}

/// The reader and the writer name the place, a built member is member 1; no byte changes.
#[test]
fn refused_in_every_entry() {
    for (kind, grade) in each_kind().iter().flat_map(|kind| REFUSED.map(|grade| (kind, grade))) {
        let second = Record { mark: 2, ..with_grade(kind, grade) };
        let records = [beam(), second.clone()];
        assert_eq!(printed(&encode(&records)), "refused 7 member 2\n");
        let mut out = [7; 400];
        let words = of_records(&records, &Random::new(7));
        let refusal = write_schedule(&words, words.len(), &mut out).unwrap_err();
        assert_eq!((refusal.question, refusal.member), (7, 2));
        let (built, first, second) = (second.built(), &second.first, &second.second);
        let refusal = member_report(&built, first, second, &mut out).unwrap_err();
        assert_eq!((refusal.question, refusal.member), (7, 1));
        assert_eq!(member_utilization(&built, first, second), Err(refusal));
        assert_eq!(out, [7; 400]);
    }
}
