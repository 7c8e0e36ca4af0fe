//! Point loads on transfer beams: document 02, wish 3.

use super::{beam, column, line, member, mesh, printed};
use crate::claim::check_line;
use crate::make::record::place::beam::*;
use crate::make::{encode, points, Record};
use crate::model::member::Body;
use crate::model::outcome::Check;
use crate::model::utilization::{governing, member_utilization};

/// Document 01's beam 1 with a point load at this distance; h0 is 460.
fn loaded(distance: u64) -> Record {
    beam().point_loaded(distance)
}

/// Distances and the shear capacities of beam 1.
const CAPACITIES: [(u64, u64); 12] = [
    (0, 177_587),
    (1, 177_587),
    (689, 177_587),
    (690, 177_587),
    (691, 177_486),
    (1000, 153_144),
    (1379, 134_457),
    (1380, 134_418),
    (1381, 134_418),
    (2000, 134_418),
    (5999, 134_418),
    (6000, 134_418),
];

#[test]
fn shear_by_distance() {
    for (distance, capacity) in CAPACITIES {
        let at = loaded(distance).with(SHEAR, capacity);
        let above = at.with(SHEAR, capacity + 1);
        assert_eq!(line(&at), format!("1 OK 179495 {capacity} 172 1885"));
        assert_eq!(line(&above), format!("1 4.3.3 179495 {capacity} - -"));
        for record in [&at, &above] {
            assert_eq!(check_line(&member(record), &line(record)), Ok(()));
        }
    }
}

/// Concrete grades and the shear capacities of beam 1 at a = 1000.
const BY_CONCRETE: [(u64, u64); 13] = [
    (20, 132_220),
    (25, 142_999),
    (30, 153_144),
    (35, 162_021),
    (40, 170_898),
    (45, 176_605),
    (50, 182_312),
    (55, 186_750),
    (60, 191_823),
    (65, 194_993),
    (70, 198_164),
    (75, 200_700),
    (80, 203_236),
];

#[test]
fn shear_by_concrete() {
    for (grade, capacity) in BY_CONCRETE {
        let record = loaded(1000).with(CONCRETE, grade);
        let outcome = |shear| member(&record.with(SHEAR, shear)).check();
        assert_eq!(outcome(capacity).figures()[1], capacity);
        assert_eq!(outcome(capacity).failed, None);
        assert_eq!(outcome(capacity + 1).failed, Some(Check::Shear));
    }
}

#[test]
fn refused_distances() {
    let alone = |record: Record| printed(&encode(&[record]));
    assert_eq!(alone(loaded(6001)), "refused 8 member 1\n");
    assert_eq!(alone(loaded(12_000)), "refused 8 member 1\n");
    assert_eq!(alone(loaded(12_001)), "refused 7 member 1\n");
    assert_eq!(alone(loaded(u64::from(u32::MAX))), "refused 7 member 1\n");
    let long = loaded(12_000).with(SPAN, 12_000);
    assert!(alone(long.clone()).starts_with("members 1\n"));
    assert_eq!(alone(long.with(LOAD, 12_001)), "refused 7 member 1\n");
    for (record, question) in points::refused() {
        assert_eq!(alone(record), format!("refused {question} member 1\n"));
    }
    let mut second = loaded(6001);
    second.mark = 2;
    assert_eq!(printed(&encode(&[beam(), second])), "refused 8 member 2\n");
}

#[test]
fn refused_files() {
    for (file, refusal) in points::refused_files() {
        let expected = format!("refused {} member {}\n", refusal.question, refusal.member);
        assert_eq!(printed(&file), expected, "{file:?}");
    }
    // Without a, the next mark is taken for it and the next width for a kind.
    let mut bytes = encode(&[loaded(6000), column()]);
    let second = encode(&[loaded(6000)]).len();
    bytes.drain(second - 2..second);
    assert_eq!(printed(&bytes), "refused 6 member 2\n");
}

/// The questions that every beam is put, and their order: a comes after kind 1's fields.
#[test]
fn questions_of_a_beam() {
    let alone = |record: &Record| printed(&encode(std::slice::from_ref(record)));
    let cases = [
        (loaded(12_001).with(STRICT, 2), 7),
        (loaded(6001).with(COVER, 40), 8),
        (loaded(0).with(COVER, 40), 8),
        (loaded(0).with(SPAN, 12_001), 7),
    ];
    for (record, question) in cases {
        assert_eq!(alone(&record), format!("refused {question} member 1\n"));
    }
    let groups = |groups: &[(u32, u32)]| {
        let head = [250, 500, 250, 0, 40, 0, 30, 1];
        let tail = [8, 2, 200, 1, 30, 6000, 150_000, 90_000, 120_000, 1, 0];
        Record::beam(1, head, groups, &[], tail).point_loaded(6000)
    };
    assert_eq!(alone(&groups(&[(6, 20), (6, 20), (6, 1)])), "refused 9 member 1\n");
    assert_eq!(alone(&groups(&[(50, 20)])), "refused 10 member 1\n");
}

#[test]
fn four_members() {
    let mut records = [beam(), column(), mesh(), loaded(1000)];
    records[3].mark = 4;
    let expected = "members 4\n1 OK 179495 177587 172 1885\n2 OK 2816134 - - -\n\
                    3 OK 263 342 - -\n4 OK 179495 153144 172 1885\n";
    assert_eq!(printed(&encode(&records)), expected);
    records[3].kind = 5;
    assert_eq!(printed(&encode(&records)), "refused 6 member 4\n");
}

/// A load at the support gives kind 1's line, and is another member.
#[test]
fn load_at_the_support() {
    assert_eq!(line(&loaded(0)), line(&beam()));
    assert_ne!(member(&loaded(0)), member(&beam()));
    assert_ne!(encode(&[loaded(0)]), encode(&[beam()]));
    assert_eq!(encode(&[loaded(0)]).len(), encode(&[beam()]).len() + 1);
}

/// Table 5.5.6 turns on 0.7·ft·b·h0 = 115115 N; at a = 6000 the concrete part is 71946 N.
#[test]
fn link_table() {
    let spaced = |spacing, shear| loaded(6000).with(SPACING, spacing).with(SHEAR, shear);
    for shear in [71_946, 71_947, 113_594] {
        assert_eq!(line(&spaced(300, shear)), "1 OK 179495 113594 172 1885");
    }
    assert_eq!(line(&spaced(301, 71_946)), "1 5.5.6s 179495 113456 - -");
    assert_eq!(line(&spaced(201, 115_115)), "1 OK 179495 134107 172 1885");
    assert_eq!(line(&spaced(201, 115_116)), "1 5.5.6s 179495 134107 - -");
    let few = |distance, shear| loaded(distance).with(LINK, 6).with(SHEAR, shear);
    for shear in [71_946, 71_947, 107_094] {
        assert_eq!(line(&few(6000, shear)), "1 OK 179495 107094 172 1885");
    }
    assert_eq!(line(&few(691, 115_115)), "1 OK 179495 150162 172 1885");
    assert_eq!(line(&few(691, 115_116)), "1 5.5.6r 179495 150162 - -");
}

/// Deflection keeps the uniform-load formula.
#[test]
fn deflection() {
    let Body::Beam(uniform) = member(&beam()).body else { panic!() };
    let expected = uniform.deflection(&uniform.cracked());
    for distance in [0, 1000, 6000] {
        let Body::Beam(beam) = member(&loaded(distance)).body else { panic!() };
        assert_eq!(beam.deflection(&beam.cracked()), expected);
    }
    let sagging = loaded(6000).with(MOMENT_QUASI, 140_000);
    assert_eq!(
        line(&sagging),
        line(&beam().with(MOMENT_QUASI, 140_000)).replace("177587", "134418")
    );
}

/// The number where kind 4 has its a changes no beam of kind 1.
#[test]
fn kind_1_has_no_distance() {
    for number in [0, 6001, 12_001, u64::from(u32::MAX)] {
        let marked = beam().with(LOAD, number);
        assert_eq!(encode(std::slice::from_ref(&marked)), encode(&[beam()]));
        let shares =
            |record: &Record| member_utilization(&record.built(), &record.first, &record.second);
        assert_eq!(shares(&marked), shares(&beam()));
    }
}

#[test]
fn utilization() {
    let record = loaded(6000).with(SHEAR, 134_418);
    let shares = member_utilization(&record.built(), &record.first, &record.second).unwrap();
    assert_eq!(shares[1], Some(1.0));
    assert_eq!(governing(&shares), Some(1.0));
    let shares = member_utilization(&loaded(1000).built(), &record.first, &record.second).unwrap();
    assert_eq!(shares[1], Some(120_000.0 / 153_144.0));
}

/// A share of the built member is refused where its line is.
#[test]
fn built_refusals() {
    for (distance, question) in [(6001, 8), (12_001, 7)] {
        let record = loaded(distance);
        let refusal =
            member_utilization(&record.built(), &record.first, &record.second).unwrap_err();
        assert_eq!((refusal.question, refusal.member), (question, 1));
    }
}

/// The claim knows a point-loaded beam's own capacity: kind 1's is unsafe, its own too far off for kind 1.
#[test]
fn claim_by_kind() {
    let (one, four) = (beam(), loaded(1000));
    assert!(check_line(&member(&four), &line(&one)).is_err());
    assert!(check_line(&member(&one), &line(&four)).is_err());
    let near = line(&loaded(690));
    assert_eq!(check_line(&member(&one), &near), Ok(()));
    for (capacity, held) in [(153_146, false), (153_145, true), (153_144, true), (153_143, false)] {
        let moved = line(&four).replace("153144", &capacity.to_string());
        assert_eq!(check_line(&member(&four), &moved).is_ok(), held, "{capacity}");
    }
}
