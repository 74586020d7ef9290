//! Rules 15 to 19. Every case is tried on a file, and once on the three runs
//! of a key block, of either minor revision.

mod entries;
mod header;
mod numbers;

use super::bases::Bases;
use super::{rule_of, Call, Cases};
use crate::generator::keyplan::Encoded;
use crate::reader::tables::Family;
use crate::reader::Order;

pub fn cases(bases: &mut Bases, cases: &mut Cases) {
    let mut bench = KeyBench { bases, cases };
    header::cases(&mut bench);
    entries::cases(&mut bench);
    numbers::cases(&mut bench);
}

/// Turns keys into cases: a file with them, and a key block.
pub struct KeyBench<'b> {
    bases: &'b mut Bases,
    cases: &'b mut Cases,
}

/// The minor revisions that rule 15 allows.
const MINORS: [u16; 2] = [0, 1];

impl KeyBench<'_> {
    /// The same file with the keys in each of these minor revisions.
    fn add(
        &mut self,
        clause: &str,
        broken: bool,
        (keys, minors): (&Encoded, &[u16]),
        want: (u32, u32),
    ) {
        let mut plan = self.bases.plain();
        for &minor in minors {
            let keys = keys.clone().of_minor(minor);
            plan.set_keys(&keys);
            self.cases.add(clause, broken, Call::Judge, plan.lay().bytes, want);
            if self.bases.order == Order::Little && self.bases.family == Family::Strips {
                let clause = format!("block {clause}");
                self.cases.add(&clause, broken, Call::ReadBlock(keys.runs()), Vec::new(), want);
            }
        }
    }

    /// Keys that break the clause, at this place.
    pub fn broken(&mut self, clause: &str, keys: &Encoded, place: u16) {
        self.add(clause, true, (keys, &MINORS), (rule_of(clause), u32::from(place)));
    }

    /// Keys that just keep the clause and every other one.
    pub fn kept(&mut self, clause: &str, keys: &Encoded) {
        self.add(clause, false, (keys, &MINORS), (0, 0));
    }

    /// Keys that just keep the clause and must then break a later rule.
    pub fn kept_until(&mut self, clause: &str, keys: &Encoded, number: u32, place: u16) {
        self.add(clause, false, (keys, &MINORS), (number, u32::from(place)));
    }
}
