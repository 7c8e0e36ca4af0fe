//! Service moment above design moment: document 02, wish 5.

use super::{beam, column, line, mesh, printed};
use crate::make::moments::{self, with_moments, MOST};
use crate::make::record::place::beam::*;
use crate::make::words::of_records;
use crate::make::{encode, Random, Record};
use crate::model::built;
use crate::model::report::{member_report, report};
use crate::model::utilization::member_utilization;
use crate::model::writing::write_schedule;

fn alone(record: Record) -> String {
    printed(&encode(&[record]))
}

/// Equal moments are accepted, and Mq one above M is refused, in both kinds.
#[test]
fn at_the_design_moment() {
    for record in moments::beams() {
        let at = with_moments(&record, 90_000, 90_000);
        assert_eq!(line(&at), line(&record));
        assert!(line(&at).starts_with("1 OK 179495 "));
        assert_eq!(alone(at.with(MOMENT_QUASI, 90_001)), "refused 14 member 1\n");
        assert_eq!(alone(at.with(MOMENT, 89_999)), "refused 14 member 1\n");
        assert_eq!(alone(with_moments(&record, 90_000, 150_000)), "refused 14 member 1\n");
    }
}

/// Question 7 takes M = 0, question 14 no Mq above it.
#[test]
fn ends_of_the_range() {
    for record in moments::beams() {
        let answers = [
            (0, 0, 7),
            (0, 1, 14),
            (1, 2, 14),
            (MOST - 1, MOST, 14),
            (MOST, MOST + 1, 7),
            (MOST + 1, MOST, 7),
        ];
        for (design, service, question) in answers {
            let answer = alone(with_moments(&record, design, service));
            assert_eq!(answer, format!("refused {question} member 1\n"));
        }
        assert!(line(&with_moments(&record, 1, 1)).starts_with("1 OK 179495 "));
        assert!(line(&with_moments(&record, MOST, MOST)).starts_with("1 4.2.2 179495 "));
    }
}

#[test]
fn refused_files() {
    for (file, refusal) in moments::refused_files() {
        let expected = format!("refused {} member {}\n", refusal.question, refusal.member);
        assert_eq!(printed(&file), expected, "{file:?}");
    }
}

/// 8 of the same member and any no of an earlier member come before it, a later member's after it.
#[test]
fn in_a_schedule() {
    let above = with_moments(&beam(), 90_000, 90_001);
    assert_eq!(alone(above.with(COVER, 40)), "refused 8 member 1\n");
    let last = Record { mark: 4, ..above.clone() };
    assert_eq!(printed(&encode(&[column(), mesh(), last.clone()])), "refused 14 member 3\n");
    let mut narrow = column();
    narrow.fields[0] = 299;
    assert_eq!(printed(&encode(&[narrow.clone(), mesh(), last])), "refused 7 member 1\n");
    assert_eq!(printed(&encode(&[above, narrow, mesh()])), "refused 14 member 1\n");
}

/// A built member is refused, its line and its shares, naming member 1; a refusal changes no byte.
#[test]
fn built_members() {
    for record in moments::beams() {
        let at = with_moments(&record, 90_000, 90_000);
        assert!(built::read(&at.built(), &at.first, &at.second).is_ok());
        let above = at.with(MOMENT_QUASI, 90_001);
        let (built, first, second) = (above.built(), &above.first, &above.second);
        let shares = member_utilization(&built, first, second).unwrap_err();
        for room in [0, 200] {
            let mut out = vec![7; room];
            let refusal = member_report(&built, first, second, &mut out).unwrap_err();
            assert_eq!((refusal.question, refusal.member), (14, 1));
            assert_eq!(shares, refusal);
            assert_eq!(out, vec![7; room]);
        }
    }
}

/// The writer names the place, and asks before 13.
#[test]
fn written_members() {
    for record in moments::beams() {
        let above = Record { mark: 4, ..with_moments(&record, 90_000, 90_001) };
        let records = [column(), mesh(), above];
        let words = of_records(&records, &Random::new(2));
        for room in [0, 1000] {
            let mut out = vec![7; room];
            let refusal = write_schedule(&words, words.len(), &mut out).unwrap_err();
            assert_eq!((refusal.question, refusal.member), (14, 3));
            assert_eq!(out, vec![7; room]);
            assert_eq!(report(&encode(&records), &mut out), Err(refusal));
            assert_eq!(out, vec![7; room]);
        }
    }
}
