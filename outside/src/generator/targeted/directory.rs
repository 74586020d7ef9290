//! Rules 6 to 8: order of the tags, values of all entries, next offset of a mask.

use super::bases::Bases;
use super::Cases;
use crate::generator::plan::{Laid, Tag};
use crate::reader::tables::METADATA;

pub fn cases(bases: &mut Bases, cases: &mut Cases) {
    tag_order(bases, cases);
    tag_ends(bases, cases);
    for kind in 1..=12 {
        value_in_entry(bases, cases, kind);
        value_start(bases, cases, kind);
        value_end(bases, cases, kind);
        value_wraps(bases, cases, kind);
    }
    unknown_types(bases, cases);
    counts_of_zero(bases, cases);
    if bases.behind.is_some() {
        next_offset(bases, cases);
    }
}

fn tag_order(bases: &mut Bases, cases: &mut Cases) {
    let laid = bases.rich().lay();
    cases.kept("6 equal tag", laid.bytes.clone());
    cases.kept("6 smaller tag", laid.bytes.clone());
    for pair in laid.spots.windows(2) {
        let before = pair[0].tag;
        let equal = [(before, "6 equal tag")].into_iter().filter(|(tag, _)| *tag != METADATA);
        for (tag, clause) in equal.chain([(before - 1, "6 smaller tag"), (0, "6 smaller tag")]) {
            let mut laid = laid.clone();
            laid.put_short(pair[1].entry, tag);
            cases.broken(clause, laid.bytes, u32::from(tag));
        }
        let mut swapped = laid.clone();
        (0..12).for_each(|at| swapped.bytes.swap(pair[0].entry + at, pair[1].entry + at));
        cases.broken("6 smaller tag", swapped.bytes, u32::from(before));
    }
    let mut twice = laid.clone();
    twice.put_short(laid.spots[3].entry, 1);
    twice.put_short(laid.spots[7].entry, 0);
    twice.put_long(laid.spots[1].entry + 4, 0);
    cases.broken("6 smaller tag", twice.bytes, 1);
}

/// The lowest and the highest tag there are.
fn tag_ends(bases: &mut Bases, cases: &mut Cases) {
    let mut plan = bases.plain();
    plan.set(Tag::raw(0, 13, 0, [0; 4]));
    plan.set(Tag::raw(1, 13, 0, [0; 4]));
    plan.set(Tag::raw(65_535, 13, 0, [0; 4]));
    let mut laid = plan.lay();
    cases.kept("6 smaller tag", laid.bytes.clone());
    laid.put_short(laid.spots[1].entry, 0);
    cases.broken("6 equal tag", laid.bytes, 0);
}

const SIZES: [usize; 12] = [1, 1, 2, 4, 8, 1, 1, 2, 4, 8, 4, 8];

/// The tag outside the table whose value the cases move about.
const MOVED: u16 = 65_010;

/// A plain file with the moved tag of this type and count, its value at
/// `offset` (or in its entry), and free bytes at the end.
fn moved(bases: &mut Bases, kind: u16, count: u32, offset: u32) -> Laid {
    let mut plan = bases.plain();
    plan.set(Tag::raw(MOVED, kind, count, [0; 4]));
    let mut laid = plan.lay();
    let even = laid.n() + laid.n() % 2;
    laid.bytes.resize(even + 4, 0xA5);
    laid.put_long(laid.spot(MOVED).entry + 8, offset);
    laid
}

/// The clause of rule 7 for a type.
fn seven(kind: u16, what: &str) -> String {
    format!("7 type {kind} {what}")
}

/// Up to 4 bytes stand in the entry, so no offset is tested.
fn value_in_entry(bases: &mut Bases, cases: &mut Cases, kind: u16) {
    let most = 4 / SIZES[usize::from(kind) - 1] as u32;
    let zero = moved(bases, kind, 0, 8).bytes;
    cases.broken(&seven(kind, "count 0"), zero, u32::from(MOVED));
    for count in 1..=most {
        let file = moved(bases, kind, count, 0xFFFF_FFFF).bytes;
        cases.kept(&seven(kind, "count 0"), file);
        cases.kept(&seven(kind, "odd"), moved(bases, kind, count, 9).bytes);
        cases.kept(&seven(kind, "below 8"), moved(bases, kind, count, 0).bytes);
    }
    let longer = moved(bases, kind, most + 1, 0xFFFF_FFFE).bytes;
    cases.broken(&seven(kind, "past n"), longer, u32::from(MOVED));
    cases.kept(&seven(kind, "count 0"), moved(bases, kind, most + 1, 8).bytes);
}

fn value_start(bases: &mut Bases, cases: &mut Cases, kind: u16) {
    let count = 4 / SIZES[usize::from(kind) - 1] as u32 + 1;
    for offset in [1, 7, 9, 11] {
        let file = moved(bases, kind, count, offset).bytes;
        cases.broken(&seven(kind, "odd"), file, u32::from(MOVED));
    }
    for offset in [0, 2, 4, 6] {
        let file = moved(bases, kind, count, offset).bytes;
        cases.broken(&seven(kind, "below 8"), file, u32::from(MOVED));
    }
    cases.kept(&seven(kind, "odd"), moved(bases, kind, count, 10).bytes);
    cases.kept(&seven(kind, "below 8"), moved(bases, kind, count, 8).bytes);
}

/// The value ends at n, then one byte or one element past it.
fn value_end(bases: &mut Bases, cases: &mut Cases, kind: u16) {
    let size = SIZES[usize::from(kind) - 1];
    let count = 8 / size.min(4);
    let mut laid = moved(bases, kind, count as u32, 8);
    let (entry, start) = (laid.spot(MOVED).entry, laid.n() - size * count);
    laid.put_long(entry + 8, start as u32);
    cases.kept(&seven(kind, "past n"), laid.bytes.clone());
    let cut = laid.bytes[..laid.n() - 1].to_vec();
    cases.broken(&seven(kind, "past n"), cut, u32::from(MOVED));
    let mut longer = laid.clone();
    longer.put_long(entry + 4, count as u32 + 1);
    cases.broken(&seven(kind, "past n"), longer.bytes, u32::from(MOVED));
    laid.put_long(entry + 8, start as u32 + 2);
    cases.broken(&seven(kind, "past n"), laid.bytes, u32::from(MOVED));
}

/// Sums and products that would come out small in 32 bits.
fn value_wraps(bases: &mut Bases, cases: &mut Cases, kind: u16) {
    let size = SIZES[usize::from(kind) - 1] as u64;
    let few = (8 / size).max(1) as u32;
    let whole = ((1 << 32) / size).min(u64::from(u32::MAX)) as u32;
    let products = [(whole, 8), (u32::MAX, 8), (whole / 2, 8)];
    let sums = [(few.max(6 / size as u32 + 1), 0xFFFF_FFFE), (whole - 1, 16)];
    for (count, offset) in products.into_iter().chain(sums) {
        let file = moved(bases, kind, count, offset).bytes;
        cases.broken(&seven(kind, "past n"), file, u32::from(MOVED));
    }
}

/// Rule 7 speaks of types 1 to 12 only.
fn unknown_types(bases: &mut Bases, cases: &mut Cases) {
    for kind in [0, 13, 14, 255, 0x0300, 65_535] {
        cases.kept("7 type 1 count 0", moved(bases, kind, 0, 9).bytes);
        cases.kept("7 type 12 past n", moved(bases, kind, u32::MAX, 0xFFFF_FFFE).bytes);
        cases.kept("7 type 12 odd", moved(bases, kind, 5, 1).bytes);
    }
}

/// Count 0 is rule 7 for tags of the table too; the first one is named.
fn counts_of_zero(bases: &mut Bases, cases: &mut Cases) {
    let plan = bases.rich();
    let laid = plan.lay();
    for (spot, tag) in laid.spots.iter().zip(&plan.tags).filter(|(_, tag)| tag.kind < 13) {
        let mut laid = laid.clone();
        laid.put_long(spot.entry + 4, 0);
        let clause = seven(tag.kind, "count 0");
        cases.broken(&clause, laid.bytes.clone(), u32::from(tag.tag));
        laid.put_long(laid.spot(65001).entry + 4, 0);
        cases.broken(&clause, laid.bytes, u32::from(tag.tag));
    }
}

/// Rule 8 is a mask's alone.
fn next_offset(bases: &mut Bases, cases: &mut Cases) {
    let laid = bases.plain().lay();
    cases.kept("8 next offset", laid.bytes.clone());
    for number in [1, 8, 256, 65_536, 0x0100_0000, laid.directory as u32, u32::MAX] {
        let mut laid = laid.clone();
        laid.put_long(laid.next(), number);
        cases.broken("8 next offset", laid.bytes, 0);
    }
}
