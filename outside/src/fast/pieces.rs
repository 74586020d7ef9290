//! The pieces, strips or tiles: rules 13 and 14 in one pass.

use super::number::{long, short};
use super::tags::slot::{STRIP_BYTE_COUNTS, STRIP_OFFSETS, TILE_BYTE_COUNTS, TILE_OFFSETS};
use super::tags::{later_value, Tags, SHORT};
use super::{refuse, Refusal};
use std::hint::black_box;

/// A run of the file that holds no byte of the reading list: pieces mostly
/// lie in the same one as the piece before.
#[derive(Clone, Copy)]
struct Gap {
    first: u64,
    bytes: u64,
}

impl Gap {
    /// What two gaps around a byte have in common.
    fn within(self, other: Gap) -> Gap {
        let first = self.first.max(other.first);
        let end = (self.first + self.bytes).min(other.first + other.bytes);
        Gap { first, bytes: end - first }
    }
}

/// Where a picture begins and ends: the first byte of its lowest piece, and the
/// byte behind its highest.
#[derive(Clone, Copy)]
pub struct Span {
    first: u64,
    end: u64,
}

impl Span {
    #[inline(always)]
    fn with(&mut self, at: u64, bytes: u64) {
        self.first = self.first.min(at);
        self.end = self.end.max(at + bytes);
    }

    /// Whether a part of a list has a byte between the two.
    pub fn meets(&self, &(first, end): &(u32, u32)) -> bool {
        u64::from(first) < self.end && self.first < u64::from(end)
    }
}

/// What the parts leave of a gap around a byte, or none if the byte is on one.
#[inline(always)]
fn narrowed(gap: Gap, parts: impl Iterator<Item = (u64, u64)>, at: u64) -> Option<Gap> {
    let (mut from, mut to) = (gap.first, gap.first + gap.bytes);
    for (first, end) in parts {
        if end <= at {
            from = from.max(end);
        } else if at < first {
            to = to.min(first);
        } else {
            return None;
        }
    }
    Some(Gap { first: from, bytes: to - from })
}

/// The gap around a byte, or none if the byte is on the list, without the
/// further metadata tags.
#[inline(never)]
fn gap_at(parts: &[(u32, u32)], at: u64, n: u64) -> Option<Gap> {
    let parts = parts.iter().map(|&(first, end)| (u64::from(first), u64::from(end)));
    narrowed(Gap { first: 8, bytes: n - 8 }, parts, at)
}

/// The same with them, looked at one by one.
#[cold]
#[inline(never)]
fn gap_among<const BIG: bool>(later: &[[u8; 12]], gap: Gap, at: u64) -> Option<Gap> {
    narrowed(gap, later.iter().filter_map(later_value::<BIG>), at)
}

/// The gap around a byte that the parts of all these tags leave.
#[inline(always)]
fn gap_around<const BIG: bool, const N: usize>(
    file: &[u8],
    lists: [&Tags; N],
    at: u64,
) -> Option<Gap> {
    let mut all: Option<Gap> = None;
    for tags in lists {
        let mut gap = gap_at(tags.parts(), at, file.len() as u64)?;
        if tags.several() {
            gap = gap_among::<BIG>(tags.later(file), gap, at)?;
        }
        all = Some(all.map_or(gap, |other| other.within(gap)));
    }
    all
}

/// The first piece that does not lie in the gap: its index, and its start and
/// end from the gap's first byte on. Those before it keep both rules.
#[inline(always)]
fn outside<A, B, const SPAN: bool>(
    gap: Gap,
    (offsets, counts): (&[A], &[B]),
    number: impl Fn(&A, &B) -> (u64, u64),
    span: &mut Span,
) -> Option<(usize, u64, u64)> {
    offsets.iter().zip(counts).enumerate().find_map(|(piece, (a, b))| {
        let (at, bytes) = number(a, b);
        if SPAN {
            span.with(at, bytes);
        }
        // a piece that is empty, or starts before the gap, does not start below
        // its end
        let start = at.wrapping_sub(gap.first);
        let end = start.wrapping_add(bytes);
        (start >= end || end > gap.bytes).then_some((piece, start, end))
    })
}

/// Rules 13 and 14, where `number` reads offset and byte count of a piece.
#[inline(always)]
fn pass<const BIG: bool, const SPAN: bool, const N: usize, A, B>(
    file: &[u8],
    lists: [&Tags; N],
    (offsets, counts): (&[A], &[B]),
    number: impl Fn(&A, &B) -> (u64, u64),
) -> Result<Span, Refusal> {
    let n = file.len() as u64;
    let counts = &counts[..offsets.len()];
    let (mut gap, mut shared, mut next) = (Gap { first: 0, bytes: 0 }, None, 0);
    let mut span = Span { first: u64::MAX, end: 0 };
    while let Some((ahead, start, end)) =
        outside::<A, B, SPAN>(gap, (&offsets[next..], &counts[next..]), &number, &mut span)
    {
        // else offset and byte count are kept for this, at one instruction for
        // each piece
        let (start, end) = (black_box(start), black_box(end));
        let (piece, bytes) = (next + ahead, end.wrapping_sub(start));
        let at = start.wrapping_add(gap.first);
        let end = at + bytes;
        if bytes == 0 || at < 8 || end > n {
            return refuse(13, piece as u32);
        }
        if shared.is_none() {
            match gap_around::<BIG, N>(file, lists, at) {
                Some(found) if end - found.first <= found.bytes => gap = found,
                _ => shared = Some(piece as u32),
            }
        }
        next = piece + 1;
    }
    match shared {
        Some(piece) => refuse(14, piece),
        None => Ok(span),
    }
}

/// Rules 13 and 14 of the pieces that `tags` tell of, by these lists, and their
/// span if it is wanted. Both runs have as many elements, by rule 12. The offsets
/// of tiles are LONG.
#[inline(always)]
fn held<const BIG: bool, const TILED: bool, const SPAN: bool, const N: usize>(
    file: &[u8],
    tags: &Tags,
    lists: [&Tags; N],
) -> Result<Span, Refusal> {
    let shorts = |slot: usize| tags.value(file, slot, 2).as_chunks::<2>().0;
    let longs = |slot: usize| tags.value(file, slot, 4).as_chunks::<4>().0;
    let two = |bytes: &[u8; 2]| u64::from(short::<BIG>(*bytes));
    let four = |bytes: &[u8; 4]| u64::from(long::<BIG>(*bytes));
    let (a, b) = match TILED {
        false => (STRIP_OFFSETS, STRIP_BYTE_COUNTS),
        true => (TILE_OFFSETS, TILE_BYTE_COUNTS),
    };
    match (!TILED && tags.entry(a).kind == SHORT, tags.entry(b).kind == SHORT) {
        (true, true) => {
            let pieces = (shorts(a), shorts(b));
            pass::<BIG, SPAN, N, _, _>(file, lists, pieces, |a, b| (two(a), two(b)))
        }
        (true, false) => {
            let pieces = (shorts(a), longs(b));
            pass::<BIG, SPAN, N, _, _>(file, lists, pieces, |a, b| (two(a), four(b)))
        }
        (false, true) => {
            let pieces = (longs(a), shorts(b));
            pass::<BIG, SPAN, N, _, _>(file, lists, pieces, |a, b| (four(a), two(b)))
        }
        (false, false) => {
            let pieces = (longs(a), longs(b));
            pass::<BIG, SPAN, N, _, _>(file, lists, pieces, |a, b| (four(a), four(b)))
        }
    }
}

/// Of an image, by its own list.
#[inline(always)]
pub fn rules13and14<const BIG: bool, const TILED: bool, const SPAN: bool>(
    file: &[u8],
    tags: &Tags,
) -> Result<Span, Refusal> {
    held::<BIG, TILED, SPAN, 1>(file, tags, [tags])
}

/// Of a mask, by the lists of both.
#[inline(always)]
pub fn rules13and14_of_mask<const BIG: bool, const TILED: bool>(
    file: &[u8],
    tags: &Tags,
    image: &Tags,
) -> Result<Span, Refusal> {
    held::<BIG, TILED, false, 2>(file, tags, [tags, image])
}

/// Of the image that keeps them, by the list of the mask.
#[inline(always)]
pub fn rule14_of_image<const BIG: bool, const TILED: bool>(
    file: &[u8],
    tags: &Tags,
    mask: &Tags,
) -> Result<Span, Refusal> {
    held::<BIG, TILED, false, 1>(file, tags, [mask])
}
