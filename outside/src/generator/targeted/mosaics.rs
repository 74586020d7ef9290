//! More than one metadata tag: rule 6 lets equal ones stand side by side, rules
//! 7 and 10 test each, all their values are on the list of rule 14, and the
//! text call names one of them or refuses by rule 29.

use super::bases::Bases;
use super::pieces::{around, fourteen, own_parts, with_piece};
use super::tags::zeros;
use super::{Call, Cases};
use crate::generator::plan::{Laid, Part, Plan, Tag};
use crate::reader::tables::METADATA;

const PLACE: u32 = METADATA as u32;

/// Texts that stand at their offsets.
pub const LONG: [&[u8]; 3] = [b"<first/>", b"<second text/>", b"third"];
/// Texts that stand in their entries.
const SHORT: [&[u8]; 3] = [b"one", b"2", b"four"];

/// Rules 6 and 7, of an image or of a mask, where 50909 is outside the table.
pub fn repeated(bases: &mut Bases, cases: &mut Cases) {
    side_by_side(bases, cases);
    apart(bases, cases);
    other_tags_twice(bases, cases);
    count_of_zero(bases, cases);
    starts(bases, cases);
    ends(bases, cases);
}

pub fn cases(bases: &mut Bases, cases: &mut Cases) {
    types(bases, cases);
    list_of_long_texts(bases, cases);
    list_of_short_texts(bases, cases);
    texts_over_others(bases, cases);
    list_of_many(bases, cases);
    numbers(bases, cases);
    numbers_without_a_tag(bases, cases);
}

/// The rich file with these metadata texts.
pub fn mosaic(bases: &mut Bases, texts: &[&[u8]]) -> Plan {
    let mut plan = bases.rich();
    plan.remove(METADATA);
    texts.iter().for_each(|text| plan.add(Tag::bytes(METADATA, 1, text)));
    plan
}

/// The plain file with as many texts as a directory has room for.
fn full(bases: &mut Bases, text: &[u8]) -> Plan {
    let mut plan = bases.plain();
    bases.cut(&mut plan, &[4, 4, 4]);
    while plan.tags.len() < 1_024 {
        plan.add(Tag::bytes(METADATA, 1, text));
    }
    plan
}

/// The file with the tags of its metadata entries set.
fn renamed(laid: &Laid, tags: &[u16]) -> Vec<u8> {
    let mut laid = laid.clone();
    let texts = laid.all(METADATA);
    texts.iter().zip(tags).for_each(|(text, &tag)| laid.put_short(text.entry, tag));
    laid.bytes
}

fn side_by_side(bases: &mut Bases, cases: &mut Cases) {
    let mixed = [LONG[0], SHORT[0], LONG[1], SHORT[2], SHORT[2]];
    for texts in [&LONG[..2], &LONG, &SHORT[..2], &SHORT, &mixed] {
        let file = mosaic(bases, texts).lay().bytes;
        for clause in ["6 equal tag", "6 smaller tag", "6 50909 apart"] {
            cases.kept(clause, file.clone());
        }
    }
    for text in [SHORT[0], LONG[2]] {
        let plan = full(bases, text);
        cases.kept("6 equal tag", plan.lay().bytes);
        cases.kept("5 c above 1024", plan.lay().bytes);
    }
    let mut more = full(bases, SHORT[0]);
    more.add(Tag::bytes(METADATA, 1, SHORT[1]));
    cases.broken("5 c above 1024", more.lay().bytes, 0);
    // the last entries of the directory
    let mut last = mosaic(bases, &LONG);
    last.tags.retain(|tag| tag.tag <= METADATA);
    cases.kept("6 equal tag", last.lay().bytes);
}

/// Equal ones with another tag between them, and their neighbours around them.
fn apart(bases: &mut Bases, cases: &mut Cases) {
    for texts in [LONG, SHORT] {
        let laid = mosaic(bases, &texts).lay();
        for tags in [[50_908, METADATA, METADATA], [METADATA, METADATA, 50_910]] {
            cases.kept("6 50909 apart", renamed(&laid, &tags));
        }
        cases.kept("6 50909 apart", renamed(&laid, &[50_908, METADATA, 50_910]));
        cases.broken("6 50909 apart", renamed(&laid, &[METADATA, 50_910, METADATA]), PLACE);
        let smaller = renamed(&laid, &[METADATA, 50_908, METADATA]);
        cases.broken("6 smaller tag", smaller, 50_908);
        cases.broken("6 smaller tag", renamed(&laid, &[METADATA, METADATA, 50_908]), 50_908);
        cases.broken("6 smaller tag", renamed(&laid, &[50_910, METADATA, METADATA]), PLACE);
        // the last text and the tag behind it exchanged
        let (text, other) = (laid.all(METADATA)[2].entry, laid.spot(65_000).entry);
        let mut swapped = laid.clone();
        (0..12).for_each(|at| swapped.bytes.swap(text + at, other + at));
        cases.broken("6 50909 apart", swapped.bytes, PLACE);
    }
    let laid = mosaic(bases, &[LONG[0], LONG[1], LONG[2], SHORT[0]]).lay();
    let apart = renamed(&laid, &[METADATA, METADATA, 50_910, METADATA]);
    cases.broken("6 50909 apart", apart, PLACE);
}

/// Every other repetition is still refused: of the neighbours of 50909, of its
/// two bytes in the other order, and of a tag of the table.
fn other_tags_twice(bases: &mut Bases, cases: &mut Cases) {
    let laid = mosaic(bases, &LONG).lay();
    for tag in [50_908, 50_910, METADATA.swap_bytes()] {
        let equal = |tags: [u16; 3]| renamed(&laid, &tags);
        cases.broken("6 equal tag", equal([tag; 3]), u32::from(tag));
        let two = if tag < METADATA { [tag, tag, METADATA] } else { [METADATA, tag, tag] };
        cases.broken("6 equal tag", equal(two), u32::from(tag));
    }
    for tag in [256, 284, 34735, 34737, 65_001] {
        let mut plan = mosaic(bases, &LONG);
        plan.add(Tag::bytes(tag, 1, SHORT[1]));
        cases.broken("6 equal tag", plan.lay().bytes, u32::from(tag));
    }
}

/// Rule 7 broken by one of the later texts alone.
fn count_of_zero(bases: &mut Bases, cases: &mut Cases) {
    let clause = "7 a later 50909 count 0";
    for texts in [LONG, SHORT] {
        let laid = mosaic(bases, &texts).lay();
        cases.kept(clause, laid.bytes.clone());
        for text in &laid.all(METADATA)[1..] {
            let mut counted = laid.clone();
            counted.put_long(text.entry + 4, 0);
            cases.broken(clause, counted.bytes.clone(), PLACE);
            // a type of the table's or not, if it is one of 1 to 12
            counted.put_short(text.entry + 2, 2);
            cases.broken(clause, counted.bytes.clone(), PLACE);
            counted.put_short(text.entry + 2, 13);
            match bases.behind {
                None => cases.broken("10 a later 50909 type", counted.bytes, PLACE),
                Some(_) => cases.kept(clause, counted.bytes),
            }
            let mut one = laid.clone();
            one.put_long(text.entry + 4, 1);
            cases.kept(clause, one.bytes);
        }
    }
}

/// A file whose directory stands at 8, with the texts and a few free bytes at
/// its end.
fn with_tail(bases: &mut Bases, texts: &[&[u8]]) -> Laid {
    let mut plan = mosaic(bases, texts);
    (plan.first, plan.gap) = (vec![Part::Directory], (0, 0));
    let mut laid = plan.lay();
    let n = laid.n() + laid.n() % 2 + 40;
    laid.bytes.resize(n, 0xA5);
    laid
}

fn starts(bases: &mut Bases, cases: &mut Cases) {
    let (odd, early) = ("7 a later 50909 odd", "7 a later 50909 below 8");
    let laid = with_tail(bases, &LONG);
    for text in &laid.all(METADATA)[1..] {
        let at = |offset: usize| {
            let mut laid = laid.clone();
            laid.put_long(text.entry + 8, offset as u32);
            laid.bytes
        };
        for offset in [1, 7, 9, laid.n() - 19, 0xFFFF_FFFF] {
            cases.broken(odd, at(offset), PLACE);
        }
        for offset in [0, 2, 4, 6] {
            cases.broken(early, at(offset), PLACE);
        }
        cases.kept(odd, at(10));
        cases.kept(odd, at(laid.n() - 20));
        cases.kept(early, at(8));
    }
    // in their entries no offset is tested
    let short = with_tail(bases, &[SHORT[0], SHORT[2], SHORT[2]]);
    for text in &short.all(METADATA)[1..] {
        for offset in [0, 9, 0xFFFF_FFFF] {
            let mut laid = short.clone();
            laid.put_long(text.entry + 8, offset);
            cases.kept(if offset == 0 { early } else { odd }, laid.bytes);
        }
    }
}

/// A later text that ends at n, then one byte or one place past it, and sums
/// that come out small in 32 bits.
fn ends(bases: &mut Bases, cases: &mut Cases) {
    let clause = "7 a later 50909 past n";
    for which in 1..3 {
        let mut laid = with_tail(bases, &[LONG[0], b"a text", b"of six"]);
        let (entry, n) = (laid.all(METADATA)[which].entry, laid.n());
        laid.put_long(entry + 8, n as u32 - 6);
        cases.kept(clause, laid.bytes.clone());
        cases.broken(clause, laid.bytes[..n - 1].to_vec(), PLACE);
        let far = [(7, n - 6), (6, n - 4), (6, n), (6, 0xFFFF_FFFE), (u32::MAX, 8), (1 << 31, 8)];
        for (count, offset) in far {
            let mut laid = laid.clone();
            laid.put_long(entry + 4, count);
            laid.put_long(entry + 8, offset as u32);
            cases.broken(clause, laid.bytes, PLACE);
        }
    }
}

/// Rule 10 broken by one of them alone, and with a lower tag.
fn types(bases: &mut Bases, cases: &mut Cases) {
    let later = "10 a later 50909 type";
    for texts in [LONG, SHORT] {
        cases.kept(later, mosaic(bases, &texts).lay().bytes);
        for which in 0..3 {
            let clause = if which == 0 { "10 50909 type" } else { later };
            for kind in [0].into_iter().chain(2..=14).chain([0x0100, 0x0101, 65_535]) {
                let mut plan = mosaic(bases, &texts);
                let at = plan.tags.iter().position(|tag| tag.tag == METADATA).expect("a text");
                let count = plan.tags[at + which].count;
                plan.tags[at + which] = zeros(METADATA, kind, count);
                cases.broken(clause, plan.lay().bytes, PLACE);
                plan.find(34737).kind = 7;
                cases.broken("10 34737 type", plan.lay().bytes, 34737);
            }
        }
    }
    // all but the first
    let mut laid = mosaic(bases, &LONG).lay();
    laid.all(METADATA)[1..].iter().for_each(|text| laid.put_short(text.entry + 2, 7));
    cases.broken(later, laid.bytes, PLACE);
    // the last of very many
    let mut laid = full(bases, SHORT[0]).lay();
    cases.kept(later, laid.bytes.clone());
    let last = laid.spots[1_023].entry;
    laid.put_short(last + 2, 2);
    cases.broken(later, laid.bytes, PLACE);
}

/// Each piece at both ends of each text, with and without a shared byte.
fn list_of_long_texts(bases: &mut Bases, cases: &mut Cases) {
    for piece in 0..3 {
        let mut plan = mosaic(bases, &LONG);
        plan.gap = (4, 4);
        let laid = plan.lay();
        let texts = own_parts(bases, &laid).into_iter().filter(|part| part.0.ends_with("50909"));
        texts.for_each(|part| around(&laid, piece, &part, cases));
    }
}

/// Texts in their entries are on the list as parts of the directory, and their
/// bytes are no offset.
fn list_of_short_texts(bases: &mut Bases, cases: &mut Cases) {
    let [directory, later] =
        ["directory", "value of a later 50909"].map(|part| fourteen(bases.family, part));
    let laid = mosaic(bases, &[LONG[0], SHORT[2], SHORT[2]]).lay();
    for text in &laid.all(METADATA)[1..] {
        for byte in 0..4 {
            let file = with_piece(&laid, 1, text.value + byte, 1).bytes;
            cases.broken(&directory, file, 1);
        }
        for &(at, count) in &laid.pieces {
            let mut laid = laid.clone();
            laid.put_long(text.value, at);
            cases.kept(&later, laid.bytes.clone());
            laid.put_long(text.value, at + count / 2);
            cases.kept(&later, laid.bytes);
        }
    }
}

/// A later text alone on a piece; texts over each other, over another value and
/// over the directory; a piece over the value of a neighbour of 50909.
fn texts_over_others(bases: &mut Bases, cases: &mut Cases) {
    let later = fourteen(bases.family, "value of a later 50909");
    let mut plan = mosaic(bases, &[LONG[0], b"second", b"of six"]);
    bases.cut(&mut plan, &[12, 11, 10]);
    plan.add(Tag::bytes(50_910, 1, b"a neighbour"));
    let laid = plan.lay();
    let texts = laid.all(METADATA);
    let moved = |text: usize, offset: usize| {
        let mut laid = laid.clone();
        laid.put_long(texts[text].entry + 8, offset as u32);
        laid
    };
    for text in [1, 2] {
        for (piece, &(at, count)) in laid.pieces.iter().enumerate() {
            // the whole text in the piece, and one byte of them shared
            let inside = (at + 2 - at % 2) as usize;
            assert!(inside + 6 <= (at + count) as usize);
            let one = with_piece(&moved(text, inside), piece, inside + 5, 1);
            cases.broken(&later, one.bytes, piece as u32);
            let before = with_piece(&moved(text, inside), piece, inside - 1, 1);
            cases.kept(&later, before.bytes);
        }
        for host in [texts[0].value, texts[text].value, laid.spot(33922).value, laid.directory] {
            cases.kept(&later, moved(text, host).bytes);
        }
    }
    let neighbour = laid.spot(50_910);
    cases.kept(&later, with_piece(&laid, 2, neighbour.value, neighbour.size).bytes);
}

/// A piece on the first, on one in the middle and on the last of very many.
fn list_of_many(bases: &mut Bases, cases: &mut Cases) {
    let mut plan = full(bases, b"of six");
    plan.gap = (4, 4);
    let laid = plan.lay();
    let texts: Vec<_> =
        own_parts(bases, &laid).into_iter().filter(|part| part.0.ends_with("50909")).collect();
    for at in [0, 1, 500, texts.len() - 1] {
        around(&laid, at % 3, &texts[at], cases);
    }
}

/// Numbers far above any number of texts.
const FAR: [u32; 6] = [255, 65_535, 65_536, 1 << 31, u32::MAX - 1, u32::MAX];

/// Each text by its number, and the numbers behind the last.
fn numbers(bases: &mut Bases, cases: &mut Cases) {
    let clause = "29 not below the number of 50909";
    let mixed = [LONG[0], SHORT[0], LONG[1], SHORT[2], LONG[2], SHORT[1], LONG[0]];
    let mut files: Vec<(u32, Vec<u8>)> = Vec::new();
    for texts in [&LONG[..1], &SHORT[..1], &LONG[..2], &LONG, &SHORT, &mixed] {
        files.push((texts.len() as u32, mosaic(bases, texts).lay().bytes));
    }
    let many = full(bases, SHORT[0]).lay();
    files.push((many.all(METADATA).len() as u32, many.bytes));
    for (texts, file) in files {
        for number in [0, texts / 2, texts - 1] {
            cases.add(clause, false, Call::Metadata(number), file.clone(), (0, 0));
        }
        for number in [texts, texts + 1].into_iter().chain(FAR.into_iter().filter(|&k| k > texts)) {
            cases.add(clause, true, Call::Metadata(number), file.clone(), (29, number));
        }
    }
}

/// The outside text is number 0 alone.
fn numbers_without_a_tag(bases: &mut Bases, cases: &mut Cases) {
    let clause = "29 no 50909 and not number 0";
    let mut beside = mosaic(bases, &[]);
    beside.set(Tag::bytes(50_908, 1, LONG[0]));
    beside.set(Tag::bytes(50_910, 1, LONG[1]));
    for plan in [bases.plain(), mosaic(bases, &[]), beside] {
        let file = plan.lay().bytes;
        cases.add(clause, false, Call::Metadata(0), file.clone(), (0, 0));
        for number in [1, 2].into_iter().chain(FAR) {
            cases.add(clause, true, Call::Metadata(number), file.clone(), (29, number));
        }
    }
}
