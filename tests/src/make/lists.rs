//! Lists of groups, each with a count: groups in and outside their range, counts past the list.

use super::beams::DIAMETERS;
use super::edges::tried_groups;
use super::Random;
use crate::model::built::Group;

/// The longest list made.
const LONGEST: usize = 6;

/// Counts far above any list; the low bits of most are a count that is accepted.
const FAR: [usize; 8] =
    [255, 256, 65_537, (1 << 31) + 2, 1 << 32, (1 << 32) + 1, (1 << 63) + 4, usize::MAX];

/// Diameters that no group has.
const UNLISTED: [u32; 12] = [0, 1, 5, 7, 9, 19, 24, 26, 39, 49, 51, u32::MAX];

/// A group in its range.
pub fn listed(random: &Random) -> Group {
    Group { diameter: random.pick(&DIAMETERS), bars: random.within(1, 20) as u32 }
}

/// A group with one of its numbers just or far outside the range, or inside it but for a high bit.
fn unlisted(random: &Random) -> Group {
    let group = listed(random);
    let high = 1 << random.within(8, 31);
    match random.below(4) {
        0 => Group { diameter: random.pick(&UNLISTED), ..group },
        1 => Group { diameter: group.diameter + high, ..group },
        2 => Group { bars: random.pick(&[0, 21, 22, u32::MAX]), ..group },
        _ => Group { bars: group.bars + high, ..group },
    }
}

/// A list of up to six groups, and a count. Half of the groups past it are out of range, of the
/// others few.
pub fn random_list(random: &Random) -> (Vec<Group>, usize) {
    let length = random.below(LONGEST as u64 + 1) as usize;
    let count = match random.below(8) {
        0 => random.pick(&FAR),
        1 => length,
        _ => random.below(LONGEST as u64 + 2) as usize,
    };
    let groups = (0..length).map(|place| {
        let outside = random.one_in(if place < count { 12 } else { 2 });
        if outside {
            unlisted(random)
        } else {
            listed(random)
        }
    });
    (groups.collect(), count)
}

/// Lists of up to six groups: each group tried at each place, no groups, the largest totals. Every
/// list comes with every count up to 7 and with those far above.
pub fn list_edges() -> Vec<(Vec<Group>, usize)> {
    let mut lists = vec![Vec::new(), vec![Group { diameter: 50, bars: 20 }; LONGEST]];
    for length in 1..=LONGEST {
        let plain: Vec<Group> = (0..length)
            .map(|place| Group { diameter: DIAMETERS[place], bars: 20 - place as u32 })
            .collect();
        for place in 0..length {
            for group in tried_groups() {
                let mut groups = plain.clone();
                groups[place] = group;
                lists.push(groups);
            }
        }
    }
    let counts = || (0..=LONGEST + 1).chain(FAR);
    lists.iter().flat_map(|groups| counts().map(|count| (groups.clone(), count))).collect()
}
