//! Minor revision 1: every call gives on a file of it what it gives on one of
//! minor revision 0. Minor revision 2 is refused by rule 15, also where an array
//! has that number among its own.

use super::bases::{few_keys, many_keys, Bases};
use super::calls::filled;
use super::mosaics::{mosaic, LONG};
use super::pairs::DAMAGES;
use super::{rule_of, Call, Cases};
use crate::generator::keyplan::{Encoded, Held};

const CLAUSE: &str = "15 third number";

pub fn cases(bases: &mut Bases, cases: &mut Cases) {
    files_of_every_sort(bases, cases);
    arrays_over_the_header(bases, cases);
    every_rule_by_every_call(bases, cases);
    rows_citations_and_texts(bases, cases);
    starts_and_room(bases, cases);
}

fn files_of_every_sort(bases: &mut Bases, cases: &mut Cases) {
    let plans = [bases.plain(), bases.rich(), bases.affine(), mosaic(bases, &LONG)];
    for mut plan in plans {
        plan.set_minor(1);
        cases.kept(CLAUSE, plan.lay().bytes);
        plan.set_minor(2);
        cases.broken(CLAUSE, plan.lay().bytes, 0);
    }
}

/// A plain file with these keys.
fn file(bases: &mut Bases, keys: &Encoded) -> Vec<u8> {
    let mut plan = bases.plain();
    plan.set_keys(keys);
    plan.lay().bytes
}

/// How many bytes the runs of these keys have.
fn needed(keys: &Encoded) -> usize {
    keys.runs().iter().map(Vec::len).sum()
}

/// An array of an own key may have the minor revision among its numbers.
fn arrays_over_the_header(bases: &mut Bases, cases: &mut Cases) {
    for (count, index) in [(1, 2), (2, 1), (3, 0), (4, 0), (2, 2), (18, 2)] {
        let keys = few_keys().with(60_001, Held::Raw(34735, count, index)).encode();
        let room = needed(&keys) + 2 * usize::from(count);
        let mut plan = bases.plain();
        plan.set_keys(&keys);
        for minor in [1, 0] {
            plan.set_minor(minor);
            cases.kept(CLAUSE, plan.lay().bytes);
            around(cases, &plan.lay().bytes, room);
        }
        plan.set_minor(2);
        cases.broken(CLAUSE, plan.lay().bytes, 0);
    }
}

/// The block with the bytes that it needs, and with one less.
fn around(cases: &mut Cases, file: &[u8], room: usize) {
    let clause = "25 output too short";
    cases.add(clause, false, Call::Block(room), file.to_vec(), (0, 0));
    cases.add(clause, true, Call::Block(room - 1), file.to_vec(), (25, room as u32));
}

/// Each rule broken in a file of minor revision 1.
fn every_rule_by_every_call(bases: &mut Bases, cases: &mut Cases) {
    for (clause, place, damage) in &DAMAGES {
        let clause = clause.replace("piece", bases.family.word());
        let mut plan = bases.rich();
        plan.set_minor(1);
        let mut laid = plan.lay();
        damage(&mut laid);
        cases.broken(&clause, laid.bytes.clone(), *place);
        let calls = [Call::Rows(0), Call::Rows(256), Call::Citation(1026), Call::Metadata(0)];
        for call in calls.into_iter().chain([Call::Block(0), Call::Block(65_536)]) {
            cases.add(&clause, true, call, laid.bytes.clone(), (rule_of(&clause), *place));
        }
    }
}

fn rows_citations_and_texts(bases: &mut Bases, cases: &mut Cases) {
    let mut plan = bases.rich();
    plan.set_minor(1);
    let (file, k) = (plan.lay().bytes, many_keys().list.len());
    let calls = [
        ("23 fewer rows than K", Call::Rows(k - 1), (23, k as u32)),
        ("23 fewer rows than K", Call::Rows(k), (0, 0)),
        ("26 ASCII key absent", Call::Citation(2049), (26, 2049)),
        ("26 ASCII key absent", Call::Citation(1026), (0, 0)),
        ("26 present key not ASCII", Call::Citation(1024), (26, 1024)),
        ("26 neither present nor ASCII", Call::Citation(0), (26, 0)),
        ("29 not below the number of 50909", Call::Metadata(1), (29, 1)),
        ("29 not below the number of 50909", Call::Metadata(0), (0, 0)),
    ];
    for (clause, call, want) in calls {
        cases.add(clause, want.0 != 0, call, file.clone(), want);
    }
}

/// Rules 24 and 25 of a block whose header has a 1 in its third place.
fn starts_and_room(bases: &mut Bases, cases: &mut Cases) {
    for location in [34735, 34736, 34737] {
        for (start, want) in [(65_535, (0, 0)), (65_536, (24, 20_000))] {
            let file = file(bases, &filled(location, start).encode().of_minor(1));
            let clause = format!("24 start in {location}");
            cases.add(&clause, want.0 != 0, Call::Block(1 << 21), file, want);
        }
    }
    for keys in [few_keys(), many_keys()] {
        let keys = keys.encode().of_minor(1);
        around(cases, &file(bases, &keys), needed(&keys));
    }
}
