//! Named files with a mask: one for each reading of request C-14's words, with
//! the verdict that it must get and a sentence why.

use super::{keys, plan_like_a};
use outside::generator::plan::{Laid, Part, Plan, Sheet, Tag};
use outside::reader::tables::{Family, BOTH};
use outside::reader::Order;

/// A file, what it must get, and why.
pub struct Named {
    pub why: String,
    pub want: (u32, u32),
    pub file: Vec<u8>,
}

/// The byte order, the family of the image and that of the mask.
pub type Sort = (Order, Family, Family);

pub fn sorts() -> impl Iterator<Item = Sort> {
    let orders = [Order::Little, Order::Big].into_iter();
    let images = orders.flat_map(|order| BOTH.iter().map(move |image| (order, *image)));
    images.flat_map(|(order, image)| BOTH.iter().map(move |mask| (order, image, *mask)))
}

/// Cuts a picture of 40 by 5 into three pieces.
fn cut(plan: &mut Plan, family: Family, counts: &[u32]) {
    Family::Strips.tags().chain(Family::Tiles.tags()).for_each(|tag| plan.remove(tag));
    match family {
        Family::Strips => plan.set(Tag::shorts(278, &[2])),
        Family::Tiles => [322, 323].iter().for_each(|&tag| plan.set(Tag::shorts(tag, &[16]))),
    }
    plan.set_pieces(family, counts, (true, true));
}

/// A mask of three pieces behind an image of three, which has a metadata text; four
/// free bytes stand around each part.
pub fn base((order, image, mask): Sort) -> Plan {
    let mut plan = plan_like_a(order, &keys().encode());
    plan.set(Tag::shorts(256, &[40]));
    plan.set(Tag::shorts(257, &[5]));
    plan.set(Tag::bytes(50909, 1, b"<a text of the image/>"));
    cut(&mut plan, image, &[12, 9, 7]);
    let mut plan = Plan::mask_of(plan);
    cut(&mut plan, mask, &[5, 3, 4]);
    plan.gap = (4, 4);
    plan
}

type OnPlan = (&'static str, (u32, u32), fn(&mut Plan));

/// Changes of the plan that do not hang on the family of the mask.
const ON_PLAN: &[OnPlan] = &[
    ("a mask that keeps every rule is accepted", (0, 0), |_| ()),
    ("254 is needed", (28, 9), |mask| mask.remove(254)),
    ("255 is not 254", (28, 9), |mask| mask.find(254).tag = 255),
    ("254 is LONG, not SHORT", (28, 10), |mask| mask.set(Tag::shorts(254, &[4]))),
    ("254 has one number", (28, 10), |mask| mask.set(Tag::longs(254, &[4, 4]))),
    ("254 is 4, not 3", (28, 11), |mask| mask.set(Tag::longs(254, &[3]))),
    ("254 is 4, not 5", (28, 11), |mask| mask.set(Tag::longs(254, &[5]))),
    ("254 is not 0, as an image's is", (28, 11), |mask| mask.set(Tag::longs(254, &[0]))),
    ("254 is compared whole", (28, 11), |mask| mask.set(Tag::longs(254, &[0x0400_0004]))),
    ("256 is needed", (28, 9), |mask| mask.remove(256)),
    ("256 is SHORT or LONG", (0, 0), |mask| mask.set(Tag::longs(256, &[40]))),
    ("256 is not BYTE", (28, 10), |mask| mask.set(Tag::bytes(256, 1, &[40]))),
    ("256 has one number", (28, 10), |mask| mask.set(Tag::shorts(256, &[40, 40]))),
    ("a width of one less than the image's is rule 11", (28, 11), |mask| {
        mask.set(Tag::shorts(256, &[39]));
    }),
    ("a width of one more is rule 11", (28, 11), |mask| mask.set(Tag::longs(256, &[41]))),
    ("a width is compared whole", (28, 11), |mask| mask.set(Tag::longs(256, &[65_576]))),
    ("257 is needed", (28, 9), |mask| mask.remove(257)),
    ("a length of one less than the image's is rule 11", (28, 11), |mask| {
        mask.set(Tag::shorts(257, &[4]));
    }),
    ("a length of one more is rule 11", (28, 11), |mask| mask.set(Tag::longs(257, &[6]))),
    ("width and length are not exchanged", (28, 11), |mask| {
        mask.set(Tag::shorts(256, &[5]));
        mask.set(Tag::shorts(257, &[40]));
    }),
    ("258 is needed", (28, 9), |mask| mask.remove(258)),
    ("258 is SHORT", (28, 10), |mask| mask.set(Tag::longs(258, &[1]))),
    ("258 is 1, not 0", (28, 11), |mask| mask.set(Tag::shorts(258, &[0]))),
    ("258 is 1, not 2", (28, 11), |mask| mask.set(Tag::shorts(258, &[2]))),
    ("258 is not 8, as an image's may be", (28, 11), |mask| mask.set(Tag::shorts(258, &[8]))),
    ("two bits of 1 are not one sample's", (28, 12), |mask| mask.set(Tag::shorts(258, &[1, 1]))),
    ("three bits of 1 at an offset, too", (28, 12), |mask| mask.set(Tag::shorts(258, &[1; 3]))),
    ("each of the bits is tested before their number", (28, 11), |mask| {
        mask.set(Tag::shorts(258, &[1, 1, 8]));
    }),
    ("259 is needed", (28, 9), |mask| mask.remove(259)),
    ("259 is SHORT", (28, 10), |mask| mask.set(Tag::longs(259, &[1]))),
    ("259 has one number", (28, 10), |mask| mask.set(Tag::shorts(259, &[1, 1]))),
    ("compression 0 is not allowed", (28, 11), |mask| mask.set(Tag::shorts(259, &[0]))),
    ("compression 2 is as before", (0, 0), |mask| mask.set(Tag::shorts(259, &[2]))),
    ("compression 3 is not allowed", (28, 11), |mask| mask.set(Tag::shorts(259, &[3]))),
    ("compression 32772 is not allowed", (28, 11), |mask| mask.set(Tag::shorts(259, &[32772]))),
    ("compression 32773 is as before", (0, 0), |mask| mask.set(Tag::shorts(259, &[32773]))),
    ("compression 32774 is not allowed", (28, 11), |mask| mask.set(Tag::shorts(259, &[32774]))),
    ("262 is needed", (28, 9), |mask| mask.remove(262)),
    ("262 is SHORT", (28, 10), |mask| mask.set(Tag::longs(262, &[4]))),
    ("262 is 4, not 3 as an image's may be", (28, 11), |mask| mask.set(Tag::shorts(262, &[3]))),
    ("262 is 4, not 5", (28, 11), |mask| mask.set(Tag::shorts(262, &[5]))),
    ("277 is needed", (28, 9), |mask| mask.remove(277)),
    ("277 is SHORT", (28, 10), |mask| mask.set(Tag::longs(277, &[1]))),
    ("277 is 1, not 0", (28, 11), |mask| mask.set(Tag::shorts(277, &[0]))),
    ("277 is 1, not 2", (28, 11), |mask| mask.set(Tag::shorts(277, &[2]))),
    ("two samples with two bits are rule 11, too", (28, 11), |mask| {
        mask.set(Tag::shorts(258, &[1, 1]));
        mask.set(Tag::shorts(277, &[2]));
    }),
    ("284 is optional", (0, 0), |mask| mask.set(Tag::shorts(284, &[1]))),
    ("284 is 1, not 0", (28, 11), |mask| mask.set(Tag::shorts(284, &[0]))),
    ("284 is 1, not 2", (28, 11), |mask| mask.set(Tag::shorts(284, &[2]))),
    ("284 is SHORT", (28, 10), |mask| mask.set(Tag::longs(284, &[1]))),
    ("284 has one number", (28, 10), |mask| mask.set(Tag::shorts(284, &[1, 1]))),
    ("a mask of neither family is rule 27", (28, 27), |mask| {
        Family::Strips.tags().chain(Family::Tiles.tags()).for_each(|tag| mask.remove(tag));
    }),
    ("27 comes before 9", (28, 27), |mask| {
        Family::Strips.tags().chain(Family::Tiles.tags()).for_each(|tag| mask.remove(tag));
        mask.remove(254);
    }),
    ("one tag of the other family is both, whatever its type", (28, 27), |mask| {
        let strips = mask.tags.iter().any(|tag| tag.tag == 273);
        mask.set(Tag::raw(if strips { 325 } else { 279 }, 13, 0, [0; 4]));
    }),
    ("a tag may not stand twice", (28, 6), |mask| {
        (0..2).for_each(|_| mask.add(Tag::shorts(284, &[1])));
    }),
    ("50909 may stand side by side in a mask, too", (0, 0), |mask| {
        [&b"first text"[..], b"2", b"the third"]
            .iter()
            .for_each(|text| mask.add(Tag::bytes(50909, 1, text)));
    }),
    ("50909 is outside a mask's table, so its type is free", (0, 0), |mask| {
        (0..3).for_each(|_| mask.add(Tag::shorts(50909, &[1, 2, 3])));
    }),
    ("rule 7 tests each 50909", (28, 7), |mask| {
        mask.add(Tag::bytes(50909, 1, b"first text"));
        mask.add(Tag::raw(50909, 1, 0, [0; 4]));
    }),
    ("rule 7 tests tags outside the table", (28, 7), |mask| {
        mask.set(Tag::raw(34735, 3, 16, [0xFF; 4]));
    }),
    ("no keys are looked for: 34735 is free", (0, 0), |mask| {
        mask.set(Tag::bytes(34735, 7, b"no keys"));
    }),
    ("scale, tiepoint and matrix are free, alone or together", (0, 0), |mask| {
        mask.set(Tag::doubles(33550, &[-1.0]));
        mask.set(Tag::shorts(33922, &[0]));
        mask.set(Tag::bytes(34264, 2, b"no matrix"));
    }),
    ("34736 and 34737 are free", (0, 0), |mask| {
        mask.set(Tag::raw(34736, 13, 0, [0xFF; 4]));
        mask.set(Tag::doubles(34737, &[1.0, 2.0]));
    }),
    ("254 is outside an image's table", (0, 0), |mask| {
        mask.image.as_mut().expect("an image").set(Tag::shorts(254, &[9, 9]));
    }),
    ("a directory of 1,024 entries", (0, 0), |mask| fill(mask, 1_024)),
    ("a directory of 1,025 entries", (28, 5), |mask| fill(mask, 1_025)),
    ("a mask's directory at 8", (0, 0), |mask| {
        (mask.first, mask.gap) = (vec![Part::Directory], (0, 0));
    }),
    ("a mask's directory at the end of the file", (0, 0), |mask| {
        (mask.last, mask.gap) = (vec![Part::Directory], (0, 0));
    }),
    ("a mask's directory between two pieces of the image", (0, 0), |mask| {
        mask.first = vec![Part::ImagePiece(0), Part::Directory, Part::ImagePiece(1)];
    }),
    ("a mask's piece between two pieces of the image", (0, 0), |mask| {
        mask.first = vec![Part::ImagePiece(2), Part::Piece(1), Part::ImagePiece(0)];
    }),
    ("the mask before everything of the image", (0, 0), |mask| {
        let pieces = (0..3).map(Part::Piece);
        mask.first = [Part::Directory].into_iter().chain(pieces).collect();
    }),
];

/// Fills the directory up with tags outside the table.
fn fill(mask: &mut Plan, entries: usize) {
    let more = entries - mask.tags.len();
    (0..more).for_each(|at| mask.set(Tag::raw(40_000 + at as u16, 13, 0, [0; 4])));
}

/// Changes of the plan of a mask in strips.
const OF_STRIPS: &[OnPlan] = &[
    ("273 is needed in strips", (28, 9), |mask| mask.remove(273)),
    ("273 is not BYTE", (28, 10), |mask| mask.set(Tag::bytes(273, 1, &[8; 3]))),
    ("two offsets of three strips", (28, 12), |mask| mask.find(273).count = 2),
    ("four offsets of three strips", (28, 12), |mask| mask.find(273).count = 4),
    ("278 is needed in strips", (28, 9), |mask| mask.remove(278)),
    ("278 is not BYTE", (28, 10), |mask| mask.set(Tag::bytes(278, 1, &[2]))),
    ("278 has one number", (28, 10), |mask| mask.set(Tag::shorts(278, &[2, 2]))),
    ("278 is not 0", (28, 11), |mask| mask.set(Tag::shorts(278, &[0]))),
    ("three rows a strip make two strips", (28, 12), |mask| mask.set(Tag::shorts(278, &[3]))),
    ("one row a strip makes five strips", (28, 12), |mask| mask.set(Tag::longs(278, &[1]))),
    ("279 is needed in strips", (28, 9), |mask| mask.remove(279)),
    ("279 is not DOUBLE", (28, 10), |mask| mask.set(Tag::doubles(279, &[1.0; 3]))),
    ("two byte counts of three strips", (28, 12), |mask| mask.set(Tag::longs(279, &[1; 2]))),
    ("four byte counts of three strips", (28, 12), |mask| mask.set(Tag::longs(279, &[1; 4]))),
    ("offsets and byte counts in SHORTs", (0, 0), |mask| {
        mask.set_pieces(Family::Strips, &[5, 3, 4], (false, false));
    }),
    ("one strip of any height", (0, 0), |mask| {
        mask.set(Tag::longs(278, &[u32::MAX]));
        mask.set_pieces(Family::Strips, &[5], (true, true));
    }),
];

/// Changes of the plan of a mask in tiles.
const OF_TILES: &[OnPlan] = &[
    ("322 is needed in tiles", (28, 9), |mask| mask.remove(322)),
    ("322 is not 0", (28, 11), |mask| mask.set(Tag::shorts(322, &[0]))),
    ("322 is a multiple of 16, not 15", (28, 11), |mask| mask.set(Tag::shorts(322, &[15]))),
    ("322 is a multiple of 16, not 17", (28, 11), |mask| mask.set(Tag::longs(322, &[17]))),
    ("322 is not BYTE", (28, 10), |mask| mask.set(Tag::bytes(322, 1, &[16]))),
    ("322 has one number", (28, 10), |mask| mask.set(Tag::shorts(322, &[16, 16]))),
    ("tiles of 32 make two", (28, 12), |mask| mask.set(Tag::shorts(322, &[32]))),
    ("323 is needed in tiles", (28, 9), |mask| mask.remove(323)),
    ("323 is not 0", (28, 11), |mask| mask.set(Tag::longs(323, &[0]))),
    ("323 is a multiple of 16, not 8", (28, 11), |mask| mask.set(Tag::shorts(323, &[8]))),
    ("323 has one number", (28, 10), |mask| mask.set(Tag::longs(323, &[16, 16]))),
    ("323 has no upper limit", (0, 0), |mask| mask.set(Tag::longs(323, &[4_294_967_280]))),
    ("324 is needed in tiles", (28, 9), |mask| mask.remove(324)),
    ("324 is LONG alone", (28, 10), |mask| mask.set(Tag::shorts(324, &[8; 3]))),
    ("two offsets of three tiles", (28, 12), |mask| mask.find(324).count = 2),
    ("four offsets of three tiles", (28, 12), |mask| mask.find(324).count = 4),
    ("325 is needed in tiles", (28, 9), |mask| mask.remove(325)),
    ("325 is SHORT or LONG", (0, 0), |mask| mask.set(Tag::shorts(325, &[5, 3, 4]))),
    ("325 is not BYTE", (28, 10), |mask| mask.set(Tag::bytes(325, 1, &[5, 3, 4]))),
    ("two byte counts of three tiles", (28, 12), |mask| mask.set(Tag::longs(325, &[1; 2]))),
    ("four byte counts of three tiles", (28, 12), |mask| mask.set(Tag::longs(325, &[1; 4]))),
];

/// Puts a piece of a sheet at this byte, with so many bytes.
fn put(laid: &mut Laid, sheet: &Sheet, piece: usize, at: usize, count: usize) {
    let (offsets, counts) = sheet.places();
    laid.put_long(offsets.value + 4 * piece, at as u32);
    laid.put_long(counts.value + 4 * piece, count as u32);
}

/// The first byte of a part, and the byte behind it.
type Ends = (usize, usize);

fn directory(sheet: &Sheet) -> Ends {
    (sheet.directory, sheet.next() + 4)
}

fn value(sheet: &Sheet, tag: u16) -> Ends {
    let spot = sheet.spot(tag);
    (spot.value, spot.value + spot.size)
}

fn offsets(sheet: &Sheet) -> Ends {
    value(sheet, sheet.places().0.tag)
}

fn counts(sheet: &Sheet) -> Ends {
    value(sheet, sheet.places().1.tag)
}

/// A tag outside the table in the place of one of a family.
fn other(tag: u16) -> Option<u16> {
    match tag {
        273 => Some(274),
        278 | 279 => Some(tag + 2),
        322..=325 => Some(tag + 4),
        _ => None,
    }
}

type OnBytes = (&'static str, (u32, u32), fn(&mut Laid));

/// Changes of single fields.
const ON_BYTES: &[OnBytes] = &[
    ("with a next offset of 0 there is no mask", (0, 0), |laid| {
        laid.put_long(laid.pointer(), 0);
        laid.put_short(laid.directory, 0);
    }),
    ("a next offset of 1", (28, 4), |laid| laid.put_long(laid.pointer(), 1)),
    ("a next offset of 2", (28, 4), |laid| laid.put_long(laid.pointer(), 2)),
    ("a next offset of 6", (28, 4), |laid| laid.put_long(laid.pointer(), 6)),
    ("a next offset of 7", (28, 4), |laid| laid.put_long(laid.pointer(), 7)),
    ("an odd next offset", (28, 4), |laid| {
        laid.put_long(laid.pointer(), laid.directory as u32 + 1)
    }),
    ("the last even byte has no room for a count", (28, 4), |laid| {
        let even = laid.n() / 2 * 2;
        laid.put_long(laid.pointer(), even as u32);
    }),
    ("a next offset far past n", (28, 4), |laid| laid.put_long(laid.pointer(), 0xFFFF_FFFE)),
    ("a count that ends at n is read", (28, 5), |laid| {
        let even = laid.n().next_multiple_of(2);
        laid.bytes.resize(even + 2, 0);
        laid.put_long(laid.pointer(), even as u32);
    }),
    ("no entry", (28, 5), |laid| laid.put_short(laid.directory, 0)),
    ("more than 1,024 entries", (28, 5), |laid| laid.put_short(laid.directory, 1_025)),
    ("a directory past n", (28, 5), |laid| laid.put_short(laid.directory, 1_024)),
    ("a smaller tag", (28, 6), |laid| laid.put_short(laid.spots[1].entry, 253)),
    ("6 comes before 7", (28, 6), |laid| {
        laid.put_short(laid.spots[3].entry, 253);
        laid.put_long(laid.spots[0].entry + 4, 0);
    }),
    ("a count of 0", (28, 7), |laid| laid.put_long(laid.spot(262).entry + 4, 0)),
    ("a value that starts odd", (28, 7), |laid| {
        let (offsets, _) = laid.places();
        laid.put_long(offsets.entry + 8, offsets.value as u32 + 1);
    }),
    ("a value that starts below 8", (28, 7), |laid| laid.put_long(laid.places().0.entry + 8, 6)),
    ("a value that ends past n", (28, 7), |laid| {
        let past = (laid.n() / 2 * 2 - 10) as u32;
        laid.put_long(laid.places().0.entry + 8, past);
    }),
    ("a mask has no next one", (28, 8), |laid| laid.put_long(laid.next(), 8)),
    ("a mask's next offset of 1 is rule 8, too", (28, 8), |laid| laid.put_long(laid.next(), 1)),
    ("a mask that leads to itself", (28, 8), |laid| {
        laid.put_long(laid.next(), laid.directory as u32);
    }),
    ("an image that leads to itself: 8 before all of 254", (28, 8), |laid| {
        laid.put_long(laid.pointer(), laid.its_image().directory as u32);
    }),
    ("8 comes before 27 and 9", (28, 8), |laid| {
        laid.put_long(laid.next(), 8);
        laid.put_short(laid.spot(254).entry, 253);
        for (spot, tag) in
            laid.spots.clone().iter().filter_map(|spot| Some((spot, other(spot.tag)?)))
        {
            laid.put_short(spot.entry, tag);
        }
    }),
    ("a byte count of 0", (28, 13), |laid| put(laid, &laid.sheet.clone(), 1, 100, 0)),
    ("a piece at 7", (28, 13), |laid| put(laid, &laid.sheet.clone(), 2, 7, 1)),
    ("a piece that ends at n", (0, 0), |laid| {
        laid.bytes.extend([1, 2, 3]);
        put(laid, &laid.sheet.clone(), 2, laid.n() - 3, 3);
    }),
    ("a piece that ends past n", (28, 13), |laid| {
        laid.bytes.extend([1, 2, 3]);
        put(laid, &laid.sheet.clone(), 2, laid.n() - 3, 4);
    }),
    ("an end that comes out small in 32 bits", (28, 13), |laid| {
        put(laid, &laid.sheet.clone(), 0, 0xFFFF_FFF8, 0x10);
    }),
    ("13 of the last piece comes before 14 of the first", (28, 13), |laid| {
        put(laid, &laid.sheet.clone(), 0, laid.directory, 1);
        put(laid, &laid.sheet.clone(), 2, laid.n(), 1);
    }),
    ("13 of the mask comes before the image on its directory", (28, 13), |laid| {
        put(laid, &laid.its_image(), 0, laid.directory, 1);
        put(laid, &laid.sheet.clone(), 2, laid.n(), 1);
    }),
    ("9 of the mask comes before the image on its directory", (28, 9), |laid| {
        put(laid, &laid.its_image(), 0, laid.directory, 1);
        laid.put_short(laid.spot(254).entry, 253);
    }),
    ("the same pieces for both pictures", (0, 0), |laid| {
        for (piece, (at, count)) in laid.its_image().pieces.into_iter().enumerate() {
            put(laid, &laid.sheet.clone(), piece, at as usize, count as usize);
        }
    }),
    ("pictures that share one byte", (0, 0), |laid| {
        let (at, count) = laid.its_image().pieces[1];
        put(laid, &laid.sheet.clone(), 0, (at + count) as usize - 1, 2);
    }),
    ("a text of the image over the mask's directory", (0, 0), |laid| {
        laid.put_long(laid.its_image().spot(50909).entry + 8, laid.directory as u32);
    }),
    ("the image's 15 comes before its mask", (15, 0), |laid| {
        laid.put_short(laid.its_image().spot(34735).value + 4, 2);
        laid.put_long(laid.next(), 8);
    }),
    ("the image's 22 comes before its mask", (22, 0), |laid| {
        let image = laid.its_image();
        laid.put_double(image.spot(33550).value + 8, 1e308f64.to_bits());
        laid.put_double(image.spot(33922).value + 32, (-f64::MAX).to_bits());
        laid.put_short(laid.directory, 0);
    }),
    ("the image's 7 comes before its mask", (7, 262), |laid| {
        laid.put_long(laid.its_image().spot(262).entry + 4, 0);
        laid.put_long(laid.pointer(), 9);
    }),
    ("the image's 27 comes before its mask", (27, 0), |laid| {
        let image = laid.its_image();
        let other = if image.tiled() { 277 } else { 33550 };
        laid.put_short(image.spot(other).entry, if image.tiled() { 273 } else { 325 });
        laid.put_long(laid.pointer(), 9);
    }),
    ("the image's own 14 comes before the mask's", (14, 2), |laid| {
        put(laid, &laid.its_image(), 1, laid.directory, 1);
        put(laid, &laid.its_image(), 2, laid.its_image().directory, 1);
    }),
];

/// The parts that rule 14 of a mask keeps a picture from: whose picture, a name,
/// and the ends of the part.
type Kept = (&'static str, fn(&Laid) -> Sheet, fn(&Laid) -> Ends);

const KEPT: &[Kept] = &[
    ("the image's piece and the mask's directory", Laid::its_image, |l| directory(&l.sheet)),
    ("the image's piece and the mask's offsets", Laid::its_image, |l| offsets(&l.sheet)),
    ("the image's piece and the mask's byte counts", Laid::its_image, |l| counts(&l.sheet)),
    ("the mask's piece and its directory", own, |l| directory(&l.sheet)),
    ("the mask's piece and its offsets", own, |l| offsets(&l.sheet)),
    ("the mask's piece and its byte counts", own, |l| counts(&l.sheet)),
    ("the mask's piece and the image's directory", own, |l| directory(&l.its_image())),
    ("the mask's piece and the image's offsets", own, |l| offsets(&l.its_image())),
    ("the mask's piece and the image's byte counts", own, |l| counts(&l.its_image())),
    ("the mask's piece and the image's scale", own, |l| value(&l.its_image(), 33550)),
    ("the mask's piece and the image's tiepoint", own, |l| value(&l.its_image(), 33922)),
    ("the mask's piece and the image's keys", own, |l| value(&l.its_image(), 34735)),
    ("the mask's piece and the image's text", own, |l| value(&l.its_image(), 50909)),
];

fn own(laid: &Laid) -> Sheet {
    laid.sheet.clone()
}

/// Each piece at both ends of each part: touching without a shared byte, and with
/// one byte shared.
fn beside(laid: &Laid) -> Vec<Named> {
    let mut files = Vec::new();
    for (name, sheet, ends) in KEPT {
        let (start, end) = ends(laid);
        for piece in 0..3 {
            for (at, count, what, want) in [
                (start - 3, 3, "ends where it starts", (0, 0)),
                (start - 3, 4, "has its first byte", (28, 14)),
                (end - 1, 3, "has its last byte", (28, 14)),
                (end, 3, "starts where it ends", (0, 0)),
            ] {
                let (mut laid, sheet) = (laid.clone(), sheet(laid));
                put(&mut laid, &sheet, piece, at, count);
                files.push(Named { why: format!("{name}: {what}"), want, file: laid.bytes });
            }
        }
    }
    files
}

/// All named files of a sort.
pub fn named(sort: Sort) -> Vec<Named> {
    let of_family = if sort.2 == Family::Strips { OF_STRIPS } else { OF_TILES };
    let planned = ON_PLAN.iter().chain(of_family).map(|(why, want, change)| {
        let mut plan = base(sort);
        change(&mut plan);
        Named { why: why.to_string(), want: *want, file: plan.lay().bytes }
    });
    let changed = ON_BYTES.iter().map(|(why, want, change)| {
        let mut laid = base(sort).lay();
        change(&mut laid);
        Named { why: why.to_string(), want: *want, file: laid.bytes }
    });
    // the image's pieces behind the mask, before it, and one on either side of it
    let firsts = [vec![], vec![0, 1, 2], vec![1]].into_iter();
    let layouts = firsts.flat_map(|first| {
        let mut plan = base(sort);
        plan.first = first.into_iter().map(Part::ImagePiece).collect();
        beside(&plan.lay())
    });
    planned.chain(changed).chain(layouts).collect()
}
