//! Rules 13 and 14: pieces in the file, and off the reading list.

use super::bases::Bases;
use super::Cases;
use crate::generator::plan::{Laid, Part, Sheet, Tag};
use crate::reader::tables::{Family, TagRow};

pub fn cases(bases: &mut Bases, cases: &mut Cases) {
    piece_ends(bases, cases);
    piece_starts(bases, cases);
    narrow_pieces(bases, cases);
    several_faults(bases, cases);
    list_of_rich(bases, cases);
    list_of_affine(bases, cases);
    list_of_short_values(bases, cases);
    off_the_list(bases, cases);
}

/// The clause of rule 13 for a fault of a piece.
fn thirteen(family: Family, what: &str) -> String {
    format!("13 {} {what}", family.word())
}

/// The clause of rule 14 for a part of the list.
pub fn fourteen(family: Family, part: &str) -> String {
    format!("14 {} on {part}", family.word())
}

/// The file with one piece's offset and byte count set; both tags are LONG.
pub fn with_piece(laid: &Laid, piece: usize, offset: usize, count: usize) -> Laid {
    with_piece_of(laid, &laid.sheet, piece, (offset, count))
}

/// The same with a piece of that sheet.
pub fn with_piece_of(
    laid: &Laid,
    sheet: &Sheet,
    piece: usize,
    (offset, count): (usize, usize),
) -> Laid {
    let mut laid = laid.clone();
    let (offsets, counts) = sheet.places();
    laid.put_long(offsets.value + 4 * piece, offset as u32);
    laid.put_long(counts.value + 4 * piece, count as u32);
    laid
}

/// The rich file with four free bytes at its end.
fn with_tail(bases: &mut Bases) -> Laid {
    let mut laid = bases.rich().lay();
    laid.bytes.extend([0x11, 0x22, 0x33, 0x44]);
    laid
}

fn piece_ends(bases: &mut Bases, cases: &mut Cases) {
    let [empty, early, past] =
        ["byte count 0", "offset below 8", "past n"].map(|what| thirteen(bases.family, what));
    for piece in 0..3 {
        let laid = with_tail(bases);
        let n = laid.n();
        let at = laid.pieces[piece].0 as usize;
        let place = piece as u32;
        for (offset, count) in [(n - 3, 3), (n - 1, 1)] {
            cases.kept(&past, with_piece(&laid, piece, offset, count).bytes);
        }
        let far = [(0xFFFF_FFFF, 1), (0xFFFF_FFF0, 0x20), (0xFFFF_FFFF, 0xFFFF_FFFF)];
        let near =
            [(n - 3, 4), (n, 1), (n - 1, 2), (n + 1, 1), (n - 3, 0xFFFF_FFFF), (8, 0xFFFF_FFFF)];
        for (offset, count) in near.into_iter().chain(far).chain([(at, n - at + 1)]) {
            cases.broken(&past, with_piece(&laid, piece, offset, count).bytes, place);
        }
        for offset in [at, 0, n, 0xFFFF_FFFF] {
            cases.broken(&empty, with_piece(&laid, piece, offset, 0).bytes, place);
        }
        cases.kept(&empty, with_piece(&laid, piece, at, 1).bytes);
        for offset in [0, 1, 6, 7] {
            cases.broken(&early, with_piece(&laid, piece, offset, 1).bytes, place);
            cases.broken(&early, with_piece(&laid, piece, offset, n).bytes, place);
        }
    }
}

/// A piece at 8, the first offset allowed.
fn piece_starts(bases: &mut Bases, cases: &mut Cases) {
    let clause = thirteen(bases.family, "offset below 8");
    for piece in 0..3 {
        let mut plan = bases.rich();
        (plan.first, plan.gap) = (vec![Part::Piece(piece)], (0, 0));
        let laid = plan.lay();
        assert_eq!(laid.pieces[piece].0, 8);
        cases.kept(&clause, laid.bytes.clone());
        let early = with_piece(&laid, piece, 7, laid.pieces[piece].1 as usize);
        cases.broken(&clause, early.bytes, piece as u32);
    }
}

/// Pieces told of in SHORTs, where they may be: strips whole, of tiles the byte
/// counts.
fn narrow_pieces(bases: &mut Bases, cases: &mut Cases) {
    let past = thirteen(bases.family, "past n");
    let tiled = bases.family == Family::Tiles;
    let mut plan = bases.rich();
    plan.set_pieces(bases.family, &[5, 6, 7], (tiled, false));
    let laid = plan.lay();
    let (offsets, counts) = laid.places();
    cases.kept(&past, laid.bytes.clone());
    for piece in 0..3 {
        let mut far = laid.clone();
        far.put_number(offsets.value, tiled, piece, 65_535);
        cases.broken(&past, far.bytes, piece as u32);
        let mut long = laid.clone();
        long.put_number(counts.value, false, piece, 65_535);
        cases.broken(&past, long.bytes, piece as u32);
        let mut empty = laid.clone();
        empty.put_number(counts.value, false, piece, 0);
        cases.broken(&thirteen(bases.family, "byte count 0"), empty.bytes, piece as u32);
    }
}

/// The first piece at fault is named, and all of 13 comes before 14.
fn several_faults(bases: &mut Bases, cases: &mut Cases) {
    let [empty, past] = ["byte count 0", "past n"].map(|what| thirteen(bases.family, what));
    let (_, byte_counts) = bases.family.places();
    let directory = fourteen(bases.family, "directory");
    let value = fourteen(bases.family, &format!("value of {byte_counts}"));
    let laid = with_tail(bases);
    let n = laid.n();
    let two = with_piece(&with_piece(&laid, 2, 0, 1), 1, n, 1);
    cases.broken(&past, two.bytes, 1);
    let on_list = with_piece(&laid, 0, laid.directory, 1);
    cases.broken(&directory, on_list.bytes.clone(), 0);
    cases.broken(&empty, with_piece(&on_list, 2, 9, 0).bytes, 2);
    cases.broken(&past, with_piece(&on_list, 1, n, 1).bytes, 1);
    let counts = laid.spot(byte_counts).value;
    let later = with_piece(&with_piece(&laid, 2, laid.directory, 1), 1, counts, 1);
    cases.broken(&value, later.bytes, 1);
    // a piece on all of the list is named by the first part of it
    for piece in 0..if bases.behind.is_none() { 3 } else { 0 } {
        let whole = with_piece(&laid, piece, 8, n - 8);
        cases.broken(&directory, whole.bytes, piece as u32);
    }
}

/// A part of the list: the clause of rule 14 for it, its first byte and its end.
pub type Listed = (String, usize, usize);

/// The parts of the full list that a sheet with this table has: the directory,
/// then the values outside their entries. `clause` makes the clause of a part's
/// name.
pub fn parts(rows: &[TagRow], sheet: &Sheet, clause: impl Fn(&str) -> String) -> Vec<Listed> {
    let mut parts = vec![(clause("directory"), sheet.directory, sheet.next() + 4)];
    let listed = |tag: u16| rows.iter().any(|row| row.tag == tag);
    for spot in sheet.spots.iter().filter(|spot| spot.size > 4 && listed(spot.tag)) {
        let later = if spot.entry == sheet.spot(spot.tag).entry { "" } else { "a later " };
        let name = format!("value of {later}{}", spot.tag);
        parts.push((clause(&name), spot.value, spot.value + spot.size));
    }
    parts
}

/// The parts of the plan's own sheet, for its own pieces.
pub fn own_parts(bases: &Bases, laid: &Laid) -> Vec<Listed> {
    parts(&bases.rows(), &laid.sheet, |name| fourteen(bases.family, name))
}

/// Piece `piece` at both ends of a part, with no byte and with one byte
/// shared, inside it and around it. Four free bytes stand around each part.
pub fn around(laid: &Laid, piece: usize, part: &Listed, cases: &mut Cases) {
    around_of(laid, &laid.sheet, piece, part, cases);
}

/// The same with a piece of that sheet.
pub fn around_of(laid: &Laid, sheet: &Sheet, piece: usize, part: &Listed, cases: &mut Cases) {
    let (clause, start, end) = part;
    for place in [(start - 2, 2), (start - 1, 1), (*end, 1), (*end, 2)] {
        cases.kept(clause, with_piece_of(laid, sheet, piece, place).bytes);
    }
    let shared = [(start - 2, 3), (end - 1, 2), (*start, 1), (end - 1, 1), (start + 1, 2)];
    for place in shared.into_iter().chain([(start - 2, end - start + 4)]) {
        let file = with_piece_of(laid, sheet, piece, place).bytes;
        cases.broken(clause, file, piece as u32);
    }
}

fn list_of_rich(bases: &mut Bases, cases: &mut Cases) {
    for piece in 0..3 {
        let mut plan = bases.rich();
        plan.gap = (4, 4);
        let laid = plan.lay();
        for part in own_parts(bases, &laid) {
            around(&laid, piece, &part, cases);
        }
    }
}

fn list_of_affine(bases: &mut Bases, cases: &mut Cases) {
    let mut plan = bases.affine();
    bases.cut(&mut plan, &[4, 4, 4]);
    plan.gap = (4, 4);
    let laid = plan.lay();
    for part in own_parts(bases, &laid) {
        around(&laid, 2, &part, cases);
    }
}

/// Values in their entries are on the list as parts of the directory.
fn list_of_short_values(bases: &mut Bases, cases: &mut Cases) {
    let clause = fourteen(bases.family, "directory");
    let mut plan = bases.rich();
    plan.set(Tag::bytes(50909, 1, b"text"));
    let laid = plan.lay();
    for spot in laid.spots.iter().filter(|spot| spot.size <= 4) {
        let file = with_piece(&laid, 1, spot.value, 1).bytes;
        cases.broken(&clause, file, 1);
    }
    let next = laid.next();
    for byte in 0..4 {
        cases.broken(&clause, with_piece(&laid, 1, next + byte, 1).bytes, 1);
    }
}

/// Pieces may lie over each other and over values of unknown tags.
fn off_the_list(bases: &mut Bases, cases: &mut Cases) {
    let laid = bases.rich().lay();
    let (at, count) = (laid.pieces[0].0 as usize, laid.pieces[0].1 as usize);
    let over = with_piece(&with_piece(&laid, 1, at, count), 2, at + 1, count - 1);
    cases.kept(&fourteen(bases.family, "directory"), over.bytes);
    for tag in [270, 305] {
        let unknown = laid.spot(tag);
        let over = with_piece(&laid, 2, unknown.value, unknown.size);
        cases.kept(&fourteen(bases.family, "directory"), over.bytes);
    }
}
