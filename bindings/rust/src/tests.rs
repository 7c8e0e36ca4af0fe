//! Where a built member and a record have each field, each list's groups after its count.

use super::*;

/// Numbers from a first one on.
fn run(from: u32, count: usize) -> Vec<u32> {
    (from..).take(count).collect()
}

/// Groups with these numbers as diameter and bars, one after the other.
fn groups(from: u32, count: u32) -> Vec<Group> {
    (0..count).map(|i| Group { diameter: from + 2 * i, bars: from + 2 * i + 1 }).collect()
}

/// The slots of a record, whose mark and kind are the member's.
fn record_of(kind: Kind, fields: &[u32], lists: [&[Group]; 2]) -> Vec<u32> {
    let record = Record::of(&built(9, kind, fields), lists[0], lists[1]);
    assert_eq!((record.mark, record.kind), (9, kind as u32));
    record.slots.to_vec()
}

#[test]
fn beam() {
    let fields = [run(100, 8), vec![4, 4], run(110, 11)].concat();
    let slots = record_of(Kind::Beam, &fields, [&groups(200, 4), &groups(300, 4)]);
    let lists = [vec![4], run(200, 8), vec![4], run(300, 8)].concat();
    assert_eq!(slots, [run(100, 8), lists, run(110, 11), vec![0; 3]].concat());
}

/// The distance of the load follows a beam's fields. Fields past it are left out; of a beam, it is left out, too.
#[test]
fn point_loaded_beam() {
    let fields = [run(100, 8), vec![4, 4], run(110, 14)].concat();
    for (kind, rest) in [(Kind::Beam, 11), (Kind::PointLoadedBeam, 12)] {
        let slots = record_of(kind, &fields, [&groups(200, 4), &groups(300, 4)]);
        let lists = [vec![4], run(200, 8), vec![4], run(300, 8)].concat();
        assert_eq!(slots, [run(100, 8), lists, run(110, rest), vec![0; 14 - rest]].concat());
    }
}

#[test]
fn column() {
    let fields = [run(100, 4), vec![4], run(105, 4)].concat();
    let slots = record_of(Kind::Column, &fields, [&groups(200, 4), &groups(300, 4)]);
    assert_eq!(slots, [run(100, 4), vec![4], run(200, 8), run(105, 4), vec![0; 23]].concat());
}

#[test]
fn mesh() {
    let slots = record_of(Kind::Mesh, &run(100, FIELDS), [&groups(200, 4), &groups(300, 4)]);
    assert_eq!(slots, [run(100, 11), vec![0; 29]].concat());
}

/// Fields of a kind that this version does not know.
#[test]
fn unknown_kind() {
    let member = Member { mark: 9, kind: 5, fields: run(100, FIELDS).try_into().unwrap() };
    let record = Record::of(&member, &groups(200, 4), &[]);
    assert_eq!((record.mark, record.kind), (9, 5));
    assert_eq!(record.slots[..], [run(100, FIELDS), vec![0; SLOTS - FIELDS]].concat());
}

/// A list cut at its count, one shorter than it, and a count above all slots.
#[test]
fn counts() {
    let fields =
        |tension, compression| [run(100, 8), vec![tension, compression], run(110, 11)].concat();
    let lists = |slots: Vec<u32>| slots[8..26].to_vec();
    let slots = record_of(Kind::Beam, &fields(1, 0), [&groups(200, 3), &groups(300, 1)]);
    assert_eq!(lists(slots), [vec![1, 200, 201], vec![0; 15]].concat());
    let slots = record_of(Kind::Beam, &fields(2, u32::MAX), [&groups(200, 1), &groups(300, 5)]);
    let tension = [vec![2, 200, 201], vec![0; 6]].concat();
    assert_eq!(lists(slots), [tension, vec![u32::MAX], run(300, 8)].concat());
}

/// The structs of named fields, in a schedule's order.
#[test]
fn named_fields() {
    let mesh = Mesh {
        family: 100,
        concrete: 101,
        diameter: 102,
        cross_bar: 103,
        paired: 104,
        apart: 105,
        seismic: 106,
        lap: 107,
        compression: 108,
        anchorage_given: 109,
        lap_given: 110,
    };
    assert_eq!(mesh.record(9).slots[..11], run(100, 11));
    let column = Column {
        b: 100,
        h: 101,
        concrete: 102,
        steel: 103,
        groups: 0,
        link_diameter: 104,
        link_spacing: 105,
        l0: 106,
        n: 107,
    };
    let slots = column.record(9, &[]).slots;
    assert_eq!([&slots[..4], &slots[13..17]].concat(), run(100, 8));
    let beam = Beam {
        b: 100,
        h: 101,
        bf: 102,
        hf: 103,
        tension_distance: 104,
        compression_distance: 105,
        concrete: 106,
        steel: 107,
        tension_groups: 0,
        compression_groups: 0,
        link_diameter: 108,
        legs: 109,
        link_spacing: 110,
        link_steel: 111,
        cover: 112,
        span: 113,
        m: 114,
        mq: 115,
        v: 116,
        environment: 117,
        strict: 118,
    };
    let slots = beam.record(9, &[], &[]).slots;
    assert_eq!([&slots[..8], &slots[26..37]].concat(), run(100, 19));
    let point_loaded = PointLoadedBeam { beam, load_distance: 119 };
    let slots = point_loaded.record(9, &[], &[]).slots;
    assert_eq!([&slots[..8], &slots[26..38]].concat(), run(100, 20));
    for (member, kind, rest) in [(beam.member(9), 1, 11), (point_loaded.member(9), 4, 12)] {
        assert_eq!((member.mark, member.kind), (9, kind));
        let fields = [run(100, 8), vec![0; 2], run(108, rest), vec![0; 14 - rest]].concat();
        assert_eq!(member.fields[..], fields);
    }
}
