//! Accepted files of very many pieces, for the cost of a piece, some with a mask.

use super::plan::{Laid, Plan, Tag};
use crate::reader::tables::{Family, LONG, METADATA, MOST_ENTRIES, SHORT};
use crate::reader::Order;
use std::fmt;

/// How the words of pieces are written, their offsets and byte counts: the byte
/// order of the file, and whether the first and the second are LONG; else SHORT.
#[derive(Clone, Copy, Debug, PartialEq, Eq)]
pub struct Words {
    pub order: Order,
    pub wide: [bool; 2],
}

/// Both LONG.
impl From<Order> for Words {
    fn from(order: Order) -> Self {
        Words { order, wide: [true, true] }
    }
}

/// L or S for the offsets, the same for the byte counts, and how the file begins.
impl fmt::Display for Words {
    fn fmt(&self, f: &mut fmt::Formatter) -> fmt::Result {
        let [offsets, byte_counts] = self.wide.map(|wide| if wide { 'L' } else { 'S' });
        let mark = if self.order == Order::Little { "II" } else { "MM" };
        write!(f, "{offsets}{byte_counts}-{mark}")
    }
}

impl Words {
    /// All four pairs of types in both byte orders.
    pub fn all() -> impl Iterator<Item = Words> {
        let pairs = [[true, true], [true, false], [false, true], [false, false]].into_iter();
        pairs.flat_map(|wide| [Order::Little, Order::Big].map(|order| Words { order, wide }))
    }

    /// Whether the pieces of a family may have them: the offsets of tiles are LONG.
    pub fn fit(self, family: Family) -> bool {
        self.wide[0] || family == Family::Strips
    }

    fn kinds(self) -> [u16; 2] {
        self.wide.map(|wide| if wide { LONG } else { SHORT })
    }

    /// How many bytes the offsets, and the byte counts, of so many pieces have outside
    /// their entries.
    fn far(self, pieces: u32) -> [u32; 2] {
        let size = |wide| pieces * if wide { 4 } else { 2 };
        self.wide.map(|wide| if size(wide) > 4 { size(wide) } else { 0 })
    }
}

/// Numbers below this are SHORTs.
const SHORTS: u32 = 65_536;

/// The most tiles across and down: a picture of 1,000,000 by 1,000,000 in
/// tiles of 16 by 16.
const MOST: u32 = 62_500;

/// So many tiles across and so many down, as near to a square as can be; none
/// if no picture has so many.
fn grid(tiles: u32) -> Option<(u32, u32)> {
    let across = (1..=tiles.isqrt()).rev().find(|across| tiles.is_multiple_of(*across))?;
    Some((across, tiles / across)).filter(|(_, down)| *down <= MOST)
}

/// Whether there is a picture of so many pieces.
pub fn possible(family: Family, pieces: u32) -> bool {
    match family {
        Family::Strips => (1..=1_000_000).contains(&pieces),
        Family::Tiles => grid(pieces).is_some(),
    }
}

/// A file of so many pieces (`possible`), of `bytes` bytes each; offsets and byte
/// counts stand right before the pieces. Where offsets are SHORT, these come first,
/// as many as fit below byte 65,536, the others on the same bytes again. It keeps
/// every rule.
pub fn many_pieces(words: impl Into<Words>, family: Family, pieces: u32, bytes: u32) -> Vec<u8> {
    with_hole(words.into(), family, (pieces, bytes), (0, false)).0.bytes
}

/// The same with a hole of so many bytes behind the pieces, or in their middle if
/// `among`; and where the hole starts.
fn with_hole(
    words: Words,
    family: Family,
    (pieces, bytes): (u32, u32),
    (hole, among): (u32, bool),
) -> (Laid, u32) {
    let mut laid = frame(words, family, pieces).lay();
    let far = words.far(pieces);
    let free = laid.n() as u32;
    // where the pieces start, and how many of them lie beside each other
    let (start, slots) = match words.wide[0] {
        true => (free + far[0] + far[1], pieces),
        false => (free, (SHORTS.saturating_sub(free + hole) / bytes.max(1)).clamp(1, pieces)),
    };
    let before = if among { slots / 2 } else { slots };
    let shift = |slot: u32| if slot < before { 0 } else { hole };
    let offset = |piece: u32| start + bytes * (piece % slots) + shift(piece % slots);
    let end = start + bytes * slots + hole;
    let first = if words.wide[0] { free } else { end.next_multiple_of(2) };
    laid.bytes.resize(end.max(first + far[0] + far[1]) as usize, 0xC7);
    let entries = places_of(&laid, family);
    put_words(&mut laid, words, pieces, entries, first, |piece| [offset(piece), bytes]);
    (laid, start + bytes * before)
}

/// A file of so many strips, of `bytes` bytes each, and a mask in `masks` strips,
/// one or as many, whose words are written as the image's. The mask's directory, its
/// values and its strips stand together: behind the picture, or, if `among`, in the
/// middle of it; where offsets are SHORT, all that has to lie below byte 65,536. It
/// keeps every rule.
pub fn many_masked(
    words: impl Into<Words>,
    strips: u32,
    bytes: u32,
    masks: u32,
    among: bool,
) -> Vec<u8> {
    let words = words.into();
    let far: u32 = words.far(masks).iter().sum();
    // one byte more, to start even
    let hole = (1 + MASK + far + masks, among);
    let (mut laid, start) = with_hole(words, Family::Strips, (strips, bytes), hole);
    let at = start.next_multiple_of(2);
    let (values, first) = (at + MASK, at + MASK + far);
    put_mask(&mut laid, words, (at, strips), masks, values, |mask| [first + mask, 1]);
    laid.bytes
}

/// The bytes of a mask's directory.
const MASK: u32 = 2 + 12 * 10 + 4;

/// Puts the directory of a mask in so many strips at a byte, and lets that of the
/// image, which has so many rows, lead to it; what has no room in its entries, of
/// offset and byte count of each strip, stands from `values` on.
fn put_mask(
    laid: &mut Laid,
    words: Words,
    (at, rows): (u32, u32),
    masks: u32,
    values: u32,
    strip: impl Fn(u32) -> [u32; 2],
) {
    let [offsets, byte_counts] = words.kinds();
    let numbers = [
        (254, LONG, 1, 4),
        (256, LONG, 1, 4),
        (257, LONG, 1, rows),
        (258, SHORT, 1, 1),
        (259, SHORT, 1, 1),
        (262, SHORT, 1, 4),
        (273, offsets, masks, 0),
        (277, SHORT, 1, 1),
        (278, LONG, 1, rows / masks),
        (279, byte_counts, masks, 0),
    ];
    laid.put_long(laid.next(), at);
    laid.put_short(at as usize, numbers.len() as u16);
    let entry = |number: usize| at as usize + 2 + 12 * number;
    for (place, (tag, kind, count, number)) in numbers.into_iter().enumerate() {
        laid.put_short(entry(place), tag);
        laid.put_short(entry(place) + 2, kind);
        laid.put_long(entry(place) + 4, count);
        laid.put_long(entry(place) + 8, 0);
        laid.put_number(entry(place) + 8, kind == LONG, 0, number);
    }
    put_words(laid, words, masks, [entry(6), entry(9)], values, strip);
    laid.put_long((at + MASK - 4) as usize, 0);
}

/// A file of so many strips (`possible`), of `bytes` bytes each, with as many
/// metadata tags as a directory has room for. Every strip lies in the gap before
/// one of their values, and the next in another. It keeps every rule; offsets
/// and byte counts stand at its end, and where the former are SHORT, the values have
/// to lie below byte 65,536. With `masked` these are also the offsets and byte counts
/// of a mask, which lies on the picture and whose directory stands behind them.
pub fn many_texts(words: impl Into<Words>, strips: u32, bytes: u32, masked: bool) -> Vec<u8> {
    let words = words.into();
    let mut plan = frame(words, Family::Strips, strips);
    // the fewest tags that place a picture
    [284, 33550, 33922].iter().for_each(|&tag| plan.remove(tag));
    let matrix = [0.5, 0., 0., 500_000., 0., -0.5, 0., 4_000_000., 0., 0., 0., 0., 0., 0., 0., 1.];
    plan.set(Tag::doubles(34264, &matrix));
    while (plan.tags.len() as u64) < MOST_ENTRIES {
        plan.add(Tag::bytes(METADATA, 1, b"a text"));
    }
    plan.gap = (bytes.into(), bytes.into());
    let mut laid = plan.lay();
    laid.bytes.resize(laid.n().next_multiple_of(2), 0);
    let gaps: Vec<u32> = laid.all(METADATA).iter().map(|text| text.value as u32 - bytes).collect();
    // a step that comes to every gap, since their number is a prime
    let gap = |strip: u32| gaps[(u64::from(strip) * 389 % gaps.len() as u64) as usize];
    let piece = |strip: u32| [gap(strip), bytes];
    let start = laid.n() as u32;
    let end = start + words.far(strips).iter().sum::<u32>();
    laid.bytes.resize(end as usize, 0);
    let entries = places_of(&laid, Family::Strips);
    put_words(&mut laid, words, strips, entries, start, piece);
    if masked {
        laid.bytes.resize((end + MASK) as usize, 0);
        put_mask(&mut laid, words, (end, strips), strips, start, piece);
    }
    laid.bytes
}

/// A file without its pieces, and with no offsets and byte counts in it yet. A
/// strip has one row, a tile 16 by 16 pixels.
fn frame(words: Words, family: Family, pieces: u32) -> Plan {
    let mut plan = Plan::new(words.order);
    for (tag, number) in [(258, 8), (259, 1), (262, 1), (277, 1), (284, 1)] {
        plan.set(Tag::shorts(tag, &[number]));
    }
    let (width, length) = match family {
        Family::Strips => {
            plan.set(Tag::shorts(278, &[1]));
            (4, pieces)
        }
        Family::Tiles => {
            plan.set(Tag::shorts(322, &[16]));
            plan.set(Tag::shorts(323, &[16]));
            let (across, down) = grid(pieces).expect("a picture of so many tiles");
            (16 * across, 16 * down)
        }
    };
    plan.set(Tag::longs(256, &[width]));
    plan.set(Tag::longs(257, &[length]));
    let (offsets, byte_counts) = family.places();
    for (tag, kind) in [offsets, byte_counts].into_iter().zip(words.kinds()) {
        plan.set(Tag::raw(tag, kind, pieces, [0; 4]));
    }
    plan.set(Tag::doubles(33550, &[0.5, 0.5, 0.0]));
    plan.set(Tag::doubles(33922, &[0.0, 0.0, 0.0, 500_000.0, 4_000_000.0, 0.0]));
    let keys = [1, 1, 0, 3, 1024, 0, 1, 1, 1025, 0, 1, 1, 3072, 0, 1, 32633];
    plan.set(Tag::shorts(34735, &keys));
    plan
}

/// The entries of the offsets and of the byte counts.
fn places_of(laid: &Laid, family: Family) -> [usize; 2] {
    let (offsets, byte_counts) = family.places();
    [offsets, byte_counts].map(|tag| laid.spot(tag).entry)
}

/// Writes offset and byte count of so many pieces, which these two entries tell of:
/// into the entry where the numbers have room there, else one run behind the other
/// from `start` on.
fn put_words(
    laid: &mut Laid,
    words: Words,
    pieces: u32,
    entries: [usize; 2],
    start: u32,
    piece: impl Fn(u32) -> [u32; 2],
) {
    let far = words.far(pieces);
    for (which, start) in [start, start + far[0]].into_iter().enumerate() {
        let field = entries[which] + 8;
        if far[which] > 0 {
            laid.put_long(field, start);
        }
        let at = if far[which] > 0 { start as usize } else { field };
        for number in 0..pieces {
            laid.put_number(at, words.wide[which], number as usize, piece(number)[which]);
        }
    }
}
