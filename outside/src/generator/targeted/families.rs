//! Rule 27: tags of one family of pieces, of both or of neither, whatever their
//! types and counts.

use super::bases::Bases;
use super::Cases;
use crate::generator::plan::{Laid, Plan, Tag};
use crate::reader::tables::{Family, BOTH};

const TWO: &str = "27 both families";
const NONE: &str = "27 neither family";

pub fn cases(bases: &mut Bases, cases: &mut Cases) {
    one_family(bases, cases);
    one_of_each(bases, cases);
    one_of_the_other(bases, cases);
    neither(bases, cases);
    after_8_and_before_9(bases, cases);
}

/// The rich file without a tag of either family.
fn bare(bases: &mut Bases) -> Plan {
    let mut plan = bases.rich();
    for tag in BOTH.iter().flat_map(|family| family.tags()) {
        plan.remove(tag);
    }
    plan
}

/// Entries of this tag that keep rule 7: of right and of wrong types and
/// counts, of types that have no value too.
fn any_entry(tag: u16) -> [Tag; 6] {
    [
        Tag::shorts(tag, &[16]),
        Tag::longs(tag, &[16]),
        Tag::longs(tag, &[16, 16, 16]),
        Tag::bytes(tag, 2, b"16"),
        Tag::raw(tag, 13, 0, [0; 4]),
        Tag::raw(tag, 65_535, u32::MAX, [0xFF; 4]),
    ]
}

fn one_family(bases: &mut Bases, cases: &mut Cases) {
    for plan in [bases.plain(), bases.rich(), bases.affine()] {
        cases.kept(TWO, plan.lay().bytes.clone());
        cases.kept(NONE, plan.lay().bytes);
    }
}

/// One strip tag and one tile tag, every pair. One of the two alone is of one
/// family, and rule 9 names the lowest other one of it.
fn one_of_each(bases: &mut Bases, cases: &mut Cases) {
    for strip in Family::Strips.tags() {
        for tile in Family::Tiles.tags() {
            for (one, other) in any_entry(strip).into_iter().zip(any_entry(tile).into_iter().rev())
            {
                let mut plan = bare(bases);
                plan.set(one);
                plan.set(other);
                cases.broken(TWO, plan.lay().bytes, 0);
                for (family, stays, goes) in
                    [(Family::Strips, strip, tile), (Family::Tiles, tile, strip)]
                {
                    let mut plan = plan.clone();
                    plan.remove(goes);
                    let lowest = family.tags().find(|tag| *tag != stays).expect("a further tag");
                    cases.kept_until(TWO, plan.lay().bytes.clone(), 9, u32::from(lowest));
                    cases.kept_until(NONE, plan.lay().bytes, 9, u32::from(lowest));
                }
            }
        }
    }
}

/// A whole family, and of the other one tag or all of them.
fn one_of_the_other(bases: &mut Bases, cases: &mut Cases) {
    let family = bases.family;
    let others = BOTH.iter().filter(|other| **other != family).flat_map(|other| other.tags());
    let mut all = bases.rich();
    for tag in others {
        for entry in any_entry(tag) {
            let mut plan = bases.rich();
            plan.set(entry);
            cases.broken(TWO, plan.lay().bytes, 0);
        }
        all.set(Tag::longs(tag, &[16]));
    }
    cases.broken(TWO, all.lay().bytes, 0);
}

/// No tag of either family, though neighbours of them stand there.
fn neither(bases: &mut Bases, cases: &mut Cases) {
    let mut plan = bare(bases);
    cases.broken(NONE, plan.lay().bytes, 0);
    for tag in [272, 274, 276, 280, 281, 321, 326] {
        plan.set(Tag::longs(tag, &[16]));
        cases.broken(NONE, plan.lay().bytes, 0);
    }
    plan.tags.retain(|tag| tag.tag == 276);
    cases.broken(NONE, plan.lay().bytes, 0);
    plan.set(Tag::raw(65_535, 13, 0, [0; 4]));
    cases.broken(NONE, plan.lay().bytes, 0);
}

fn with_next(laid: &Laid) -> Vec<u8> {
    let mut laid = laid.clone();
    laid.put_long(laid.next(), 8);
    laid.bytes
}

/// Files that break 27 and another rule.
fn after_8_and_before_9(bases: &mut Bases, cases: &mut Cases) {
    let mut mixed = bases.rich();
    let other = if bases.family == Family::Strips { 324 } else { 278 };
    mixed.set(Tag::longs(other, &[16]));
    for (clause, plan) in [(TWO, mixed), (NONE, bare(bases))] {
        let laid = plan.lay();
        let next = if bases.behind.is_some() { "8 next offset" } else { clause };
        cases.broken(next, with_next(&laid), 0);
        let mut counted = laid.clone();
        counted.put_long(laid.spot(277).entry + 4, 0);
        cases.broken("7 type 3 count 0", counted.bytes, 277);
        for tag in [256, 262, 277, 34735] {
            let mut plan = plan.clone();
            plan.remove(tag);
            cases.broken(clause, plan.lay().bytes, 0);
        }
        let mut typed = laid.clone();
        typed.put_short(laid.spot(256).entry + 2, 13);
        cases.broken(clause, typed.bytes, 0);
        let mut valued = laid.clone();
        valued.put_short(laid.spot(259).value, 5);
        cases.broken(clause, valued.bytes, 0);
    }
}
