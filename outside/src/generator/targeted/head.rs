//! Rules 1 to 5: the head and the directory's count.

use super::bases::Bases;
use super::Cases;
use crate::generator::plan::{Laid, Part, Plan, Tag};
use crate::reader::Order;

pub fn cases(bases: &mut Bases, cases: &mut Cases) {
    length(bases, cases);
    marks(bases, cases);
}

/// Rules 4 and 5, of an image or of a mask.
pub fn directories(bases: &mut Bases, cases: &mut Cases) {
    offsets(bases, cases);
    counts(bases, cases);
    directory_end(bases, cases);
}

fn length(bases: &mut Bases, cases: &mut Cases) {
    let file = bases.plain().lay().bytes;
    for n in 0..8 {
        cases.broken("1 n below 8", file[..n].to_vec(), 0);
    }
    cases.kept_until("1 n below 8", file[..8].to_vec(), 4, 0);
    cases.kept("1 n below 8", file);
}

fn marks(bases: &mut Bases, cases: &mut Cases) {
    let laid = bases.plain().lay();
    let with = |mark: [u8; 2]| [&mark, &laid.bytes[2..]].concat();
    for mark in [*b"IM", *b"MI", *b"HI", *b"IJ", *b"LM", *b"MN", [0, 0], [0xFF, 0xFF]] {
        cases.broken("2 neither order", with(mark), 0);
    }
    cases.kept("2 neither order", laid.bytes.clone());
    let other = if laid.order == Order::Little { *b"MM" } else { *b"II" };
    cases.broken("3 not 42", with(other), 0);
    for number in [0, 41, 43, 42 << 8, 42 + 256, 0x2A2A, 65_535] {
        let mut laid = laid.clone();
        laid.put_short(2, number);
        cases.broken("3 not 42", laid.bytes, 0);
    }
    cases.kept("3 not 42", laid.bytes);
}

/// The file with the directory's offset set.
fn offset(laid: &Laid, number: usize) -> Vec<u8> {
    let mut laid = laid.clone();
    laid.put_long(laid.pointer(), number as u32);
    laid.bytes
}

fn offsets(bases: &mut Bases, cases: &mut Cases) {
    let mut plan = bases.plain();
    (plan.first, plan.gap) = (vec![Part::Directory], (0, 0));
    let mut laid = plan.lay();
    cases.kept("4 odd", laid.bytes.clone());
    cases.kept("4 below 8", laid.bytes.clone());
    for number in [2, 4, 6] {
        cases.broken("4 below 8", offset(&laid, number), 0);
    }
    // with 0 there is no mask
    match bases.behind {
        None => cases.broken("4 below 8", offset(&laid, 0), 0),
        Some(_) => cases.kept("4 below 8", offset(&laid, 0)),
    }
    for zeros in [4, 3] {
        laid.bytes.resize(laid.n() + zeros, 0);
        let n = laid.n();
        for number in [1, 7, 9, n - 1 + n % 2, n + 1 + n % 2, 0xFFFF_FFFF] {
            cases.broken("4 odd", offset(&laid, number), 0);
        }
        let even = n - n % 2;
        for number in [even, even + 2, 0x8000_0000, 0xFFFF_FFFE] {
            cases.broken("4 past n", offset(&laid, number), 0);
        }
        cases.kept_until("4 past n", offset(&laid, even - 2), 5, 0);
    }
}

/// The plain plan with so many entries in all.
fn many(bases: &mut Bases, entries: usize) -> Plan {
    let mut plan = bases.plain();
    let known = plan.tags.len();
    for number in 0..entries - known {
        plan.set(Tag::raw(40_000 + number as u16, 13, 0, [0; 4]));
    }
    plan
}

fn counts(bases: &mut Bases, cases: &mut Cases) {
    let laid = bases.plain().lay();
    let counted = |count: u16| {
        let mut laid = laid.clone();
        laid.put_short(laid.directory, count);
        laid.bytes
    };
    cases.broken("5 c is 0", counted(0), 0);
    cases.kept("5 c is 0", laid.bytes.clone());
    for count in [1_025, 4_096, 65_535] {
        cases.broken("5 c above 1024", counted(count), 0);
    }
    cases.broken("5 past n", counted(1_024), 0);
    cases.kept("5 c above 1024", many(bases, 1_024).lay().bytes);
    cases.broken("5 c above 1024", many(bases, 1_025).lay().bytes, 0);
    let mut one = bases.plain();
    (one.tags, one.pieces) = (vec![Tag::raw(1, 0, 0, [0; 4])], Vec::new());
    cases.kept_until("5 c is 0", one.lay().bytes, 27, 0);
}

/// The directory as the last part of the file.
fn directory_end(bases: &mut Bases, cases: &mut Cases) {
    let mut plan = bases.plain();
    (plan.last, plan.gap) = (vec![Part::Directory], (0, 0));
    let laid = plan.lay();
    cases.kept("5 past n", laid.bytes.clone());
    for cut in [1, 2, 4, 5, 12, 16] {
        cases.broken("5 past n", laid.bytes[..laid.n() - cut].to_vec(), 0);
    }
    let only_count = laid.directory + 2;
    cases.broken("5 past n", laid.bytes[..only_count].to_vec(), 0);
    cases.broken("4 past n", laid.bytes[..only_count - 1].to_vec(), 0);
    let mut more = laid.clone();
    more.put_short(laid.directory, laid.spots.len() as u16 + 1);
    cases.broken("5 past n", more.bytes, 0);
}
