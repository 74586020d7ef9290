//! Rules 9 to 12: needed tags, types and counts, values, agreement.

use super::bases::Bases;
use super::Cases;
use crate::generator::plan::{Plan, Tag};
use crate::reader::tables::{Count, Family, Need, TagRow};

pub fn cases(bases: &mut Bases, cases: &mut Cases) {
    absent(bases, cases);
    absent_together(bases, cases);
    types(bases, cases);
    types_together(bases, cases);
    counts(bases, cases);
    values(bases, cases);
    piece_counts(bases, cases);
    if bases.behind.is_none() {
        fewest_keys(bases, cases);
        values_of_bits(bases, cases);
        values_together(bases, cases);
        bits_and_samples(bases, cases);
        compression(bases, cases);
    }
    match bases.family {
        Family::Strips => strips_rounded_up(bases, cases),
        Family::Tiles => tiles_rounded_up(bases, cases),
    }
}

/// The needed tags, lowest first.
fn needed(bases: &Bases) -> Vec<u16> {
    bases.rows().iter().filter(|row| row.need != Need::Never).map(|row| row.tag).collect()
}

/// Each needed tag absent, alone and with all later ones, of which one of the
/// family stays.
fn absent(bases: &mut Bases, cases: &mut Cases) {
    let needed = needed(bases);
    let (_, stays) = bases.family.places();
    for (at, &tag) in needed.iter().enumerate() {
        let clause = format!("9 {tag} absent");
        cases.kept(&clause, bases.plain().lay().bytes);
        for mut plan in [bases.plain(), bases.rich()] {
            plan.remove(tag);
            cases.broken(&clause, plan.lay().bytes, u32::from(tag));
            let later = needed[at..].iter().filter(|later| **later != stays);
            later.for_each(|&later| plan.remove(later));
            cases.broken(&clause, plan.lay().bytes, u32::from(tag));
        }
    }
    for tag in [284, 50909] {
        let mut plan = bases.rich();
        plan.remove(tag);
        cases.kept(&format!("9 {stays} absent"), plan.lay().bytes);
    }
    let mut renamed = bases.rich().lay();
    let lowest = needed[0];
    renamed.put_short(renamed.spots[0].entry, 255);
    cases.broken(&format!("9 {lowest} absent"), renamed.bytes, u32::from(lowest));
}

/// A part of the family: each of its tags absent with each other needed tag,
/// and each of its tags left alone. The lowest absent one is named.
fn absent_together(bases: &mut Bases, cases: &mut Cases) {
    let own: Vec<u16> = bases.family.tags().collect();
    let without = |bases: &mut Bases, absent: &[u16]| {
        let mut plan = bases.rich();
        absent.iter().for_each(|&tag| plan.remove(tag));
        plan.lay().bytes
    };
    for &tag in &own {
        for other in needed(bases).into_iter().filter(|other| *other != tag) {
            let lowest = tag.min(other);
            let file = without(bases, &[tag, other]);
            cases.broken(&format!("9 {lowest} absent"), file, u32::from(lowest));
        }
        let others: Vec<u16> = own.iter().copied().filter(|other| *other != tag).collect();
        let file = without(bases, &others);
        cases.broken(&format!("9 {} absent", others[0]), file, u32::from(others[0]));
    }
}

/// A base that has the tag.
fn base_with(bases: &mut Bases, tag: u16) -> Plan {
    if tag == 34264 {
        bases.affine()
    } else {
        bases.rich()
    }
}

/// A tag of any type and count with a value of zeros.
pub fn zeros(tag: u16, kind: u16, count: u32) -> Tag {
    const SIZES: [usize; 12] = [1, 1, 2, 4, 8, 1, 1, 2, 4, 8, 4, 8];
    match kind {
        1..=12 => {
            let size = SIZES[usize::from(kind) - 1];
            Tag { count, ..Tag::bytes(tag, kind, &vec![0; size * count as usize]) }
        }
        _ => Tag::raw(tag, kind, count, [0; 4]),
    }
}

fn types(bases: &mut Bases, cases: &mut Cases) {
    for row in bases.rows() {
        let clause = format!("10 {} type", row.tag);
        for kind in (0..=14).chain([0x0300, 65_535]).filter(|kind| !row.kinds.contains(kind)) {
            let mut plan = base_with(bases, row.tag);
            let count = plan.find(row.tag).count;
            plan.set(zeros(row.tag, kind, count));
            cases.broken(&clause, plan.lay().bytes, u32::from(row.tag));
        }
        cases.kept(&clause, base_with(bases, row.tag).lay().bytes);
    }
    for (tag, number) in [(256, 4), (257, 2)].into_iter().chain(bases.piece_sizes()) {
        for wide in [false, true] {
            let mut plan = bases.plain();
            plan.set(Tag::numbers(tag, wide, &[u32::from(number)]));
            cases.kept(&format!("10 {tag} type"), plan.lay().bytes);
        }
    }
    types_of_places(bases, cases);
}

/// Offsets and byte counts as SHORT and as LONG; the offsets of tiles are LONG
/// alone.
fn types_of_places(bases: &mut Bases, cases: &mut Cases) {
    let (offsets, byte_counts) = bases.family.places();
    for wide in [(false, false), (false, true), (true, false), (true, true)] {
        let mut plan = bases.rich();
        plan.set_pieces(bases.family, &[3, 1, 4], wide);
        let file = plan.lay().bytes;
        if bases.family == Family::Tiles && !wide.0 {
            cases.broken("10 324 type", file, 324);
        } else {
            cases.kept(&format!("10 {offsets} type"), file.clone());
            cases.kept(&format!("10 {byte_counts} type"), file);
        }
    }
}

/// Two neighbours of another type: the lower one is named.
fn types_together(bases: &mut Bases, cases: &mut Cases) {
    let mut rows: Vec<TagRow> = bases.rows();
    rows.retain(|row| row.tag != 34264);
    for pair in rows.windows(2) {
        let mut plan = bases.rich();
        plan.find(pair[0].tag).kind = 13;
        plan.find(pair[1].tag).kind = 0;
        let clause = format!("10 {} type", pair[0].tag);
        cases.broken(&clause, plan.lay().bytes, u32::from(pair[0].tag));
    }
}

fn counts(bases: &mut Bases, cases: &mut Cases) {
    for row in bases.rows() {
        let clause = format!("10 {} count", row.tag);
        let wrong: Vec<u32> = match row.count {
            Count::Exactly(1) => vec![2, 3, 256],
            Count::Exactly(count) => vec![1, count - 1, count + 1, 2 * count],
            Count::AtLeast(1) => continue,
            Count::AtLeast(count) => (1..count).collect(),
        };
        for count in wrong {
            for &kind in row.kinds {
                let mut plan = base_with(bases, row.tag);
                plan.set(zeros(row.tag, kind, count));
                cases.broken(&clause, plan.lay().bytes, u32::from(row.tag));
            }
        }
        cases.kept(&clause, base_with(bases, row.tag).lay().bytes);
    }
}

/// A key directory of the fewest numbers that there may be.
fn fewest_keys(bases: &mut Bases, cases: &mut Cases) {
    let mut no_keys = bases.plain();
    no_keys.set(Tag::shorts(34735, &[1, 1, 0, 0]));
    cases.kept_until("10 34735 count", no_keys.lay().bytes, 18, 1024);
}

/// The plain plan with a tag's number, and where it is allowed with others
/// that let it stand.
fn with_value(bases: &mut Bases, tag: u16, number: u32, wide: bool, allowed: bool) -> Vec<u8> {
    let mut plan = bases.plain();
    plan.set(Tag::numbers(tag, wide, &[number]));
    match tag {
        256 | 257 => bases.one_piece(&mut plan),
        259 if allowed && number != 1 => plan.set(Tag::shorts(258, &[1])),
        277 if allowed && bases.behind.is_none() => {
            plan.set(Tag::shorts(258, &vec![8; number as usize]));
        }
        278 if allowed => plan.set_both(Tag::shorts(257, &[1])),
        _ => {}
    }
    plan.lay().bytes
}

/// Tag, fault, numbers beyond the bound, numbers just within.
type Bound = (u16, &'static str, &'static [u32], &'static [u32]);

/// Numbers around multiples of 16, as SHORT and as LONG.
const NO_SIXTEENS: &[u32] =
    &[1, 8, 15, 17, 24, 31, 33, 65_519, 65_535, 65_537, u32::MAX - 16, u32::MAX - 14, u32::MAX];
const SIXTEENS: &[u32] =
    &[16, 32, 48, 65_520, 65_536, 1_000_000, 1 << 31, u32::MAX - 31, u32::MAX - 15];

const BOUNDS: [Bound; 20] = [
    (256, "below", &[0], &[1, 2]),
    (256, "above", &[1_000_001, 16_777_216, u32::MAX], &[1_000_000, 65_536]),
    (257, "below", &[0], &[1, 2]),
    (257, "above", &[1_000_001, 16_777_216, u32::MAX], &[1_000_000, 65_536]),
    (258, "below", &[0], &[1]),
    (258, "between", &[2, 4, 7, 9, 15, 17, 24, 31], &[1, 8, 16, 32]),
    (258, "above", &[33, 64, 256, 65_535], &[32]),
    (259, "below", &[0], &[1]),
    (259, "between", &[3, 4, 5, 7, 8, 32_772], &[2, 32_773]),
    (259, "above", &[32_774, 32_946, 65_535], &[32_773]),
    (262, "above", &[4, 5, 8, 256, 65_535], &[0, 1, 2, 3]),
    (277, "below", &[0], &[1]),
    (277, "above", &[9, 256, 65_535], &[2, 7, 8]),
    (278, "below", &[0], &[1, 2, 65_535, 65_536, u32::MAX]),
    (284, "below", &[0], &[1]),
    (284, "above", &[2, 256, 65_535], &[1]),
    (322, "not positive", &[0], &[16]),
    (322, "not a multiple of 16", NO_SIXTEENS, SIXTEENS),
    (323, "not positive", &[0], &[16]),
    (323, "not a multiple of 16", NO_SIXTEENS, SIXTEENS),
];

/// Where a mask has others; its image is 4 wide and 2 long.
const OF_MASK: [Bound; 15] = [
    (254, "below", &[0, 1, 2, 3], &[4]),
    (254, "above", &[5, 6, 7, 256, 1024, 65_540, 0x0004_0000, 0x0400_0000, u32::MAX], &[4]),
    (256, "below", &[0, 1, 3], &[4]),
    (256, "above", &[5, 6, 1_000_000, 1_000_001, u32::MAX], &[4]),
    (257, "below", &[0, 1], &[2]),
    (257, "above", &[3, 4, 1_000_000, 1_000_001, u32::MAX], &[2]),
    (258, "below", &[0], &[1]),
    (258, "above", &[2, 8, 16, 32, 256, 65_535], &[1]),
    (259, "below", &[0], &[1]),
    (259, "between", &[3, 4, 5, 7, 8, 32_772], &[1, 2, 32_773]),
    (259, "above", &[32_774, 32_946, 65_535], &[32_773]),
    (262, "below", &[0, 1, 2, 3], &[4]),
    (262, "above", &[5, 8, 256, 1024, 65_535], &[4]),
    (277, "below", &[0], &[1]),
    (277, "above", &[2, 3, 8, 9, 256, 65_535], &[1]),
];

fn values(bases: &mut Bases, cases: &mut Cases) {
    let known: Vec<u16> = bases.rows().iter().map(|row| row.tag).collect();
    let mut bounds = BOUNDS.to_vec();
    if bases.behind.is_some() {
        bounds.retain(|(tag, ..)| OF_MASK.iter().all(|other| other.0 != *tag));
        bounds.extend(OF_MASK);
    }
    for (tag, side, beyond, within) in bounds.into_iter().filter(|bound| known.contains(&bound.0)) {
        let clause = format!("11 {tag} {side}");
        let long = matches!(tag, 254 | 256 | 257 | 278 | 322 | 323);
        let forms =
            |number: u32| [(false, tag != 254 && number < 65_536), (true, long)].into_iter();
        for &number in beyond {
            for (wide, _) in forms(number).filter(|(_, fits)| *fits) {
                let file = with_value(bases, tag, number, wide, false);
                cases.broken(&clause, file, u32::from(tag));
            }
        }
        for &number in within {
            for (wide, _) in forms(number).filter(|(_, fits)| *fits) {
                cases.kept(&clause, with_value(bases, tag, number, wide, true));
            }
        }
    }
}

/// Every value of 258 is tested, and before its count is compared.
fn values_of_bits(bases: &mut Bases, cases: &mut Cases) {
    for at in 0..4 {
        let mut bits = [8; 4];
        bits[at] = 7;
        let mut plan = bases.rich();
        plan.set(Tag::shorts(258, &bits));
        cases.broken("11 258 between", plan.lay().bytes, 258);
        plan.set(Tag::shorts(258, &bits[..3]));
        if at < 3 {
            cases.broken("11 258 between", plan.lay().bytes, 258);
        }
    }
}

/// Two values not allowed: the lower tag is named.
fn values_together(bases: &mut Bases, cases: &mut Cases) {
    let faults = [(256, "below"), (257, "below"), (258, "below"), (259, "below"), (262, "above")];
    let more: &[(u16, &str)] = match bases.family {
        Family::Strips => &[(277, "below"), (278, "below"), (284, "below")],
        Family::Tiles => {
            &[(277, "below"), (284, "below"), (322, "not positive"), (323, "not positive")]
        }
    };
    let faults: Vec<(u16, &str)> = faults.into_iter().chain(more.iter().copied()).collect();
    for pair in faults.windows(2) {
        let mut plan = bases.rich();
        for &(tag, _) in pair {
            plan.set(Tag::shorts(tag, &[if tag == 262 { 4 } else { 0 }]));
        }
        let clause = format!("11 {} {}", pair[0].0, pair[0].1);
        cases.broken(&clause, plan.lay().bytes, u32::from(pair[0].0));
    }
}

fn bits_and_samples(bases: &mut Bases, cases: &mut Cases) {
    let file = |bases: &mut Bases, bits: &[u16], samples: u16| {
        let mut plan = bases.rich();
        plan.set(Tag::shorts(258, bits));
        plan.set(Tag::shorts(277, &[samples]));
        plan.lay().bytes
    };
    let count = "12 258 count is not samples";
    for (bits, samples) in [(1, 2), (2, 1), (2, 3), (4, 3), (8, 7), (7, 8), (9, 8), (1, 8)] {
        cases.broken(count, file(bases, &vec![8; bits], samples), 258);
    }
    for samples in 1..=8 {
        cases.kept(count, file(bases, &vec![16; samples], samples as u16));
    }
    let differ = "12 258 values differ";
    for bits in [[16, 8, 8], [8, 16, 8], [8, 8, 16], [1, 8, 32], [32, 32, 1]] {
        cases.broken(differ, file(bases, &bits, 3), 258);
    }
    for bits in [1, 8, 16, 32] {
        cases.kept(differ, file(bases, &[bits; 3], 3));
    }
}

fn compression(bases: &mut Bases, cases: &mut Cases) {
    let file = |bases: &mut Bases, compression: u16, bits: u16, samples: usize| {
        let mut plan = bases.plain();
        plan.set(Tag::shorts(258, &vec![bits; samples]));
        plan.set(Tag::shorts(259, &[compression]));
        plan.set(Tag::shorts(277, &[samples as u16]));
        plan.lay().bytes
    };
    for number in [2, 32_773] {
        let (bits, samples) = (
            format!("12 259 is {number}, bits not 1"),
            format!("12 259 is {number}, samples not 1"),
        );
        for wrong in [8, 16, 32] {
            cases.broken(&bits, file(bases, number, wrong, 1), 259);
            cases.broken(&bits, file(bases, number, wrong, 2), 259);
            cases.kept(&bits, file(bases, 1, wrong, 2));
        }
        for wrong in [2, 8] {
            cases.broken(&samples, file(bases, number, 1, wrong), 259);
            cases.kept(&samples, file(bases, 1, 1, wrong));
        }
        cases.kept(&bits, file(bases, number, 1, 1));
        cases.kept(&samples, file(bases, number, 1, 1));
    }
}

/// Offsets and byte counts each one too few or one too many.
fn piece_counts(bases: &mut Bases, cases: &mut Cases) {
    let (offsets, byte_counts) = bases.family.places();
    for (tag, other) in [(offsets, byte_counts), (byte_counts, offsets)] {
        for (count, what) in [(1, "few"), (2, "few"), (4, "many"), (5, "many")] {
            let mut plan = bases.rich();
            plan.find(tag).count = count;
            if tag == byte_counts {
                plan.set(Tag::longs(byte_counts, &vec![1; count as usize]));
            }
            let clause = format!("12 {tag} too {what}");
            cases.broken(&clause, plan.lay().bytes, u32::from(tag));
            plan.set_pieces(bases.family, &vec![1; count as usize], (true, true));
            let both = format!("12 {offsets} too {what}");
            cases.broken(&both, plan.lay().bytes, u32::from(offsets));
            cases.kept(&clause, bases.rich().lay().bytes);
            cases.kept(&format!("12 {other} too {what}"), bases.rich().lay().bytes);
        }
    }
}

/// Length / rows per strip is rounded up and must not overflow.
fn strips_rounded_up(bases: &mut Bases, cases: &mut Cases) {
    let of =
        [(5, 1, 5), (5, 2, 3), (5, 4, 2), (5, 5, 1), (5, 6, 1), (4, 2, 2), (6, 2, 3), (1, 1, 1)];
    let far = [(1_000_000, u32::MAX, 1), (1_000_000, 999_999, 2), (65_537, 65_536, 2)];
    for (length, rows, strips) in of.into_iter().chain(far) {
        counted(bases, cases, &[(257, length), (278, rows)], strips);
    }
}

/// Tiles across times tiles down, each rounded up: not the quotient of the
/// areas, which is another number for several of these, nor in 16 bits.
fn tiles_rounded_up(bases: &mut Bases, cases: &mut Cases) {
    const LARGEST: u32 = u32::MAX - 15;
    let of = [
        ((1, 1), (16, 16), 1),
        ((16, 16), (16, 16), 1),
        ((17, 16), (16, 16), 2),
        ((16, 17), (16, 16), 2),
        ((17, 17), (16, 16), 4),
        ((40, 1), (16, 16), 3),
        ((1, 40), (16, 16), 3),
        ((32, 32), (16, 16), 4),
        ((33, 31), (16, 16), 6),
        ((48, 16), (16, 48), 3),
        ((16, 48), (48, 16), 3),
        ((100, 50), (32, 48), 8),
        ((1_000_000, 1_000_000), (LARGEST, LARGEST), 1),
        ((1_000_000, 1), (LARGEST, 16), 1),
        ((1_000_000, 1_000_000), (1_000_000, 999_984), 2),
        ((1_000_000, 1_000_000), (999_984, 999_984), 4),
        ((65_537, 65_536), (65_536, 65_536), 2),
    ];
    for ((width, length), (of_width, of_length), tiles) in of {
        let numbers = [(256, width), (257, length), (322, of_width), (323, of_length)];
        counted(bases, cases, &numbers, tiles);
    }
    // 65,792 tiles, and 3,906,250,000
    for (width, length, tiles) in [(4096, 4112, 256), (1_000_000, 1_000_000, 1)] {
        let file = with_pieces(bases, &[(256, width), (257, length)], tiles);
        cases.broken("12 324 too few", file, 324);
    }
}

/// The plain file with these numbers and so many pieces.
fn with_pieces(bases: &mut Bases, numbers: &[(u16, u32)], pieces: usize) -> Vec<u8> {
    let mut plan = bases.plain();
    for &(tag, number) in numbers {
        let tag = Tag::longs(tag, &[number]);
        // a mask is as large as its image
        match tag.tag {
            256 | 257 => plan.set_both(tag),
            _ => plan.set(tag),
        }
    }
    plan.set_pieces(bases.family, &vec![2; pieces], (true, false));
    plan.lay().bytes
}

/// The right number of pieces, one less and one more.
fn counted(bases: &mut Bases, cases: &mut Cases, numbers: &[(u16, u32)], pieces: usize) {
    let (offsets, _) = bases.family.places();
    let (few, many) = (format!("12 {offsets} too few"), format!("12 {offsets} too many"));
    cases.kept(&few, with_pieces(bases, numbers, pieces));
    cases.kept(&many, with_pieces(bases, numbers, pieces));
    if pieces > 1 {
        cases.broken(&few, with_pieces(bases, numbers, pieces - 1), u32::from(offsets));
    }
    cases.broken(&many, with_pieces(bases, numbers, pieces + 1), u32::from(offsets));
}
