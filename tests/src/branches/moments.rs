//! Which cases of question 14 were reached: Mq at most M (document 02, wish 5). A beam is tried in every entry.

use super::{Case, Tally};
use crate::make::moments::{moments, MOST};
use crate::make::Record;
use crate::model::schedule::Refusal;

const KIND_1: &str = "kind 1, Mq (0 one below M, 1 at, 2 one above)";
const KIND_4: &str = "kind 4, Mq (0 one below M, 1 at, 2 one above)";
const NO_DESIGN: &str = "14, M = 0, kind";
const MOST_DESIGN: &str = "Mq = M = 10^8, kind";
const MOST_SERVICE: &str = "14, Mq = 10^8 = M + 1, kind";
const EARLIER_OF_1: &str = "kind 1, no to 14 and before it to";
const EARLIER_OF_4: &str = "kind 4, no to 14 and before it to";
const IN_FILE: &str = "file with a no to 14 (10 q + member)";
const BEFORE: &str = "14, and a later member's no to";
const AFTER: &str = "no before a later member's 14, to";

impl Tally {
    /// Notes a beam that is answered as it must be, by its moments.
    pub fn note_moments(&mut self, record: &Record) {
        let ((design, service), kind) = (moments(record), u64::from(record.kind));
        let about = if kind == 4 { KIND_4 } else { KIND_1 };
        self.add_if(service + 1 == design, about, 0);
        self.add_if(service == design, about, 1);
        self.add_if(service == design + 1, about, 2);
        self.add_if(design == 0, NO_DESIGN, kind);
        self.add_if((design, service) == (MOST, MOST), MOST_DESIGN, kind);
        self.add_if((design, service) == (MOST - 1, MOST), MOST_SERVICE, kind);
    }

    /// Notes a beam of this kind with a no to 14 that an earlier question refuses.
    pub fn note_earlier_question(&mut self, kind: u32, question: u32) {
        let about = if kind == 4 { EARLIER_OF_4 } else { EARLIER_OF_1 };
        self.add(about, u64::from(question));
    }

    /// Notes a file of a beam with a no to 14, and what refuses it.
    pub fn note_file_of_moments(&mut self, refusal: Refusal) {
        self.add(IN_FILE, u64::from(10 * refusal.question + refusal.member));
    }

    /// Notes two members with a no, one of them to 14; the first's is the answer.
    pub fn note_two_members(&mut self, first: u32, second: u32) {
        self.add_if(first == 14, BEFORE, u64::from(second));
        self.add_if(second == 14, AFTER, u64::from(first));
    }
}

/// Every case of question 14 that a comparison is to reach.
pub fn required_of_moments() -> Vec<Case> {
    let mut cases = Vec::new();
    let mut put = |about, variants: &[u64]| {
        cases.extend(variants.iter().map(|&variant| (about, variant)));
    };
    for about in [KIND_1, KIND_4] {
        put(about, &[0, 1, 2]);
    }
    for about in [NO_DESIGN, MOST_DESIGN, MOST_SERVICE] {
        put(about, &[1, 4]);
    }
    for about in [EARLIER_OF_1, EARLIER_OF_4] {
        put(about, &[5, 6, 7, 8, 9, 10]);
    }
    put(IN_FILE, &[141, 142, 91, 101, 21, 52, 61]);
    put(BEFORE, &[5, 6, 7, 8, 9, 10, 14]);
    put(AFTER, &[5, 6, 7, 8, 9, 10, 14]);
    cases
}
