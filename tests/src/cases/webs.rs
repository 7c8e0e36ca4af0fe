//! The web itself crushes: document 02, wish 6.

use super::{line, member};
use crate::claim::check_line;
use crate::make::record::place::beam::*;
use crate::make::webs::{self, doubled, first_web, flanged, narrow, web, with_links, LIGHT};
use crate::make::Record;
use crate::model::member::Body;
use crate::model::outcome::Check;
use crate::model::utilization::{governing, member_utilization, Shares};

fn failed(record: &Record) -> Option<Check> {
    member(record).check().failed
}

/// 6.3.1v holds with this V, in both kinds and wherever a point load stands, and fails with one more.
fn holds_up_to(record: &Record, most: u64) {
    let span = u64::from(record.fields[SPAN]);
    let mut beams = vec![record.clone()];
    beams.extend([0, 1, span / 2, span].map(|distance| record.point_loaded(distance)));
    for beam in beams {
        assert_eq!(failed(&beam.with(SHEAR, most)), None, "{beam:?}");
        assert_eq!(failed(&beam.with(SHEAR, most + 1)), Some(Check::WebCrushing), "{beam:?}");
    }
}

#[test]
fn examples() {
    for (record, expected) in webs::examples() {
        assert_eq!(line(&record), format!("1 {expected}"));
        assert_eq!(check_line(&member(&record), &line(&record)), Ok(()));
    }
}

/// The largest V by h0, where b is 100: h0/b around 4 and 6, between, and above 14.
const BY_DEPTH: [(u64, u64); 11] = [
    (399, 142_642),
    (400, 143_000),
    (401, 143_214),
    (500, 160_875),
    (599, 171_528),
    (600, 171_600),
    (601, 171_886),
    (1399, 400_114),
    (1400, 400_400),
    (1401, 400_686),
    (1500, 429_000),
];

#[test]
fn limit_by_depth() {
    holds_up_to(&first_web(), 411_125);
    for (h0, most) in BY_DEPTH {
        holds_up_to(&narrow(h0), most);
    }
}

/// The largest V by grade, where b is 250 and h0 is 460, 1000, 1250, 1500 or 1960.
const BY_CONCRETE: [(u32, [u64; 5]); 13] = [
    (20, [276_000, 600_000, 675_000, 720_000, 940_800]),
    (25, [342_125, 743_750, 836_718, 892_500, 1_166_200]),
    (30, [411_125, 893_750, 1_005_468, 1_072_500, 1_401_400]),
    (35, [480_125, 1_043_750, 1_174_218, 1_252_500, 1_636_600]),
    (40, [549_125, 1_193_750, 1_342_968, 1_432_500, 1_871_800]),
    (45, [606_625, 1_318_750, 1_483_593, 1_582_500, 2_067_800]),
    (50, [664_125, 1_443_750, 1_624_218, 1_732_500, 2_263_800]),
    (55, [703_129, 1_528_541, 1_719_609, 1_834_250, 2_396_753]),
    (60, [737_916, 1_604_166, 1_804_687, 1_925_000, 2_515_333]),
    (65, [768_487, 1_670_625, 1_879_453, 2_004_750, 2_619_540]),
    (70, [792_350, 1_722_500, 1_937_812, 2_067_000, 2_700_880]),
    (75, [809_791, 1_760_416, 1_980_468, 2_112_500, 2_760_333]),
    (80, [825_700, 1_795_000, 2_019_375, 2_154_000, 2_814_560]),
];

#[test]
fn limit_by_concrete() {
    for (grade, limits) in BY_CONCRETE {
        for (h0, most) in [460, 1000, 1250, 1500, 1960].into_iter().zip(limits) {
            holds_up_to(&web(250, h0, grade), most);
        }
    }
}

/// A flange, the environment and the steel make no difference to the limit, nor does the distance of the bars but for h0.
#[test]
fn other_fields() {
    for (h0, most) in BY_DEPTH {
        holds_up_to(&flanged(&web(100, h0, 30)), most);
        holds_up_to(&narrow(h0).with(H, h0 + 60).with(AS, 60), most);
    }
    for field in [ENVIRONMENT, STEEL] {
        holds_up_to(&narrow(500).with(field, 2), 160_875);
    }
}

/// Each beam that is made at an edge is accepted and reaches 6.3.1v, but for two that fail 4.2.2 and two 4.2.3.
#[test]
fn beams_at_the_edges() {
    let found: Vec<Option<Check>> = webs::directed().iter().map(failed).collect();
    let count = |check| found.iter().filter(|failed| **failed == Some(check)).count();
    let earlier = [Check::MinimumSteel, Check::DepthLimit, Check::Moment, Check::MomentShallow];
    assert_eq!(earlier.map(count), [0, 0, 2, 2]);
}

/// 6.3.1v alone fails, 4.3.3 alone, both, and neither. Where both fail 6.3.1v is named.
#[test]
fn beside_the_links() {
    let heavy = |shear| line(&narrow(400).with(SHEAR, shear));
    let close = with_links(&narrow(400), LIGHT).with(SPACING, 200);
    let light = |shear| line(&close.with(SHEAR, shear));
    assert_eq!(heavy(143_000), "1 OK 72595 2645864 1 1");
    assert_eq!(heavy(143_001), "1 6.3.1v 72595 - - -");
    assert_eq!(light(70_604), "1 OK 72595 70604 1 1");
    assert_eq!(light(70_605), "1 4.3.3 72595 70604 - -");
    assert_eq!(light(143_000), "1 4.3.3 72595 70604 - -");
    assert_eq!(light(143_001), "1 6.3.1v 72595 - - -");
    assert_eq!(light(webs::MOST), "1 6.3.1v 72595 - - -");
}

#[test]
fn no_shear() {
    for (h0, _) in BY_DEPTH {
        let beam = narrow(h0).with(SHEAR, 0);
        assert_eq!(failed(&beam), None);
        assert_eq!(failed(&beam.point_loaded(1000)), None);
    }
}

/// The checks before it are named first, and no check after it.
#[test]
fn in_the_chain() {
    let crushed = narrow(400).with(SHEAR, webs::MOST);
    let moment = crushed.with(MOMENT, 72_596);
    assert_eq!(line(&crushed.with(MOMENT, 72_595)), "1 6.3.1v 72595 - - -");
    assert_eq!(line(&moment), "1 4.2.2 72595 - - -");
    assert_eq!(line(&crushed.with(CONCRETE, 20)), "1 4.2.2-3 - - - -");
    assert_eq!(line(&crushed.with(H, 2000)), "1 6.3.1v 425504 - - -");
    assert_eq!(line(&crushed.with(B, 200).with(BF, 200).with(H, 1900)), "1 6.3.1 - - - -");
    let cracked = crushed.with(MOMENT, 72_595).with(MOMENT_QUASI, 72_595);
    assert_eq!(line(&cracked.with(SPACING, 400)), "1 6.3.1v 72595 - - -");
    let shallow = doubled(&web(100, 500, 40)).with(SHEAR, 214_876);
    assert_eq!(line(&shallow.with(MOMENT, 75_731)), "1 6.3.1v 75731 - - -");
    assert_eq!(line(&shallow.with(MOMENT, 75_732)), "1 4.2.3 75731 - - -");
}

fn shares(record: &Record) -> Shares {
    member_utilization(&record.built(), &record.first, &record.second).unwrap()
}

/// Where it fails the moment alone has a share, which then governs.
#[test]
fn utilization() {
    for record in [first_web(), first_web().point_loaded(6000)] {
        let record = record.with(MOMENT, 139_989);
        let at = shares(&record.with(SHEAR, 411_125));
        assert!(at.iter().all(Option::is_some));
        let above = shares(&record.with(SHEAR, 411_126));
        assert_eq!(above, [Some(1.0), None, None, None]);
        assert_eq!(governing(&above), Some(1.0));
    }
    for (record, expected) in webs::examples() {
        let figures = expected.split(' ').skip(1).map(|word| word != "-");
        assert!(shares(&record).iter().map(Option::is_some).eq(figures), "{expected}");
    }
}

/// Where it fails the claim takes no OK and no figure but the moment's; where it holds, not its name.
#[test]
fn claim() {
    for (record, expected) in webs::examples() {
        let member = member(&record);
        let held = |text: String| check_line(&member, &text).is_ok();
        let figure = expected.split(' ').nth(1).unwrap();
        let Body::Beam(beam) = &member.body else { panic!() };
        let shear = beam.shear_capacity();
        assert!(held(format!("1 {expected}")));
        let crushed = !beam.is_within_web_limit();
        assert_eq!(held(format!("1 6.3.1v {figure} - - -")), crushed);
        if crushed {
            assert!(!held(format!("1 OK {figure} - - -")));
            for word in ["OK", "6.3.1v", "4.3.3", "5.5.6s", "5.5.6r", "4.4.2"] {
                for later in [format!("{shear} - -"), format!("{shear} 1 1"), "- 1 1".into()] {
                    assert!(!held(format!("1 {word} {figure} {later}")), "{word} {later}");
                }
            }
            assert!(!held(format!("1 6.3.1v {figure} - 1 -")));
            assert!(!held(format!("1 6.3.1v {figure} - - 1")));
        }
    }
}

/// Where it fails the claim takes the name of another check if that fails too: the comparison holds the order.
#[test]
fn claim_of_other_names() {
    let heavy = narrow(400).with(SHEAR, 1_000_000);
    let light = with_links(&heavy, LIGHT);
    let held = |record: &Record, name| {
        check_line(&member(record), &format!("1 {name} 72595 - - -")).is_ok()
    };
    for name in ["4.2.2", "4.3.3", "5.5.6s", "5.5.6r", "4.4.1", "4.4.2", "4.5.1"] {
        assert!(!held(&heavy, name), "{name}");
        assert_eq!(held(&light, name), ["4.3.3", "5.5.6s"].contains(&name), "{name}");
    }
}
