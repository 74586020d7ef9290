//! The pieces, strips or tiles alike: rules 13 and 14.

use super::directory::{Directory, Entry};
use super::tables::Family;
use super::tags::needed;
use super::verdict::{refuse, Refusal};
use std::ops::Range;

/// The pieces of a picture: what one is called, and the bytes of each by its
/// index.
pub struct Pieces {
    word: &'static str,
    pub list: Vec<Range<u64>>,
}

/// The pieces of a family that rules 9 to 12 are kept for.
pub fn pieces(directory: &Directory, family: Family) -> Pieces {
    let (offsets, byte_counts) = family.places();
    let (offsets, counts) = (needed(directory, offsets), needed(directory, byte_counts));
    let ends = offsets.iter().zip(&counts);
    let list = ends.map(|(&o, &c)| u64::from(o)..u64::from(o) + u64::from(c)).collect();
    Pieces { word: family.word(), list }
}

/// Rule 13: each piece has bytes and lies in the file.
pub fn rule13(directory: &Directory, pieces: &Pieces) -> Result<(), Refusal> {
    let fault = |place, what: &str| refuse(13, place, &format!("{} {what}", pieces.word));
    for (place, piece) in (0..).zip(&pieces.list) {
        if piece.start == piece.end {
            return fault(place, "byte count 0");
        }
        if piece.start < 8 {
            return fault(place, "offset below 8");
        }
        if piece.end > directory.n() {
            return fault(place, "past n");
        }
    }
    Ok(())
}

/// A part of the reading list, by its name.
pub type Part = (String, Range<u64>);

/// The first part of every list; rule 1 is kept.
pub fn head() -> Part {
    ("head".to_string(), 0..8)
}

/// What a directory adds to the full list: itself, and the values of its table;
/// rule 7 is kept. `whose` is said behind each name.
pub fn parts(directory: &Directory, whose: &str) -> Vec<Part> {
    let mut parts = vec![(format!("directory{whose}"), directory.range())];
    let values = directory.listed_values().into_iter();
    let name = |entry: &Entry| format!("value of {}{whose}", directory.named(entry));
    parts.extend(values.map(|(entry, value)| (name(entry), value)));
    parts
}

/// Whether two ranges, neither empty, share a byte.
pub fn share(one: &Range<u64>, other: &Range<u64>) -> bool {
    one.start < other.end && other.start < one.end
}

/// Rule 14: no piece shares a byte with the list. `whose` is said behind the
/// word for a piece.
pub fn rule14(pieces: &Pieces, whose: &str, list: &[Part]) -> Result<(), Refusal> {
    for (place, piece) in (0..).zip(&pieces.list) {
        if let Some((name, _)) = list.iter().find(|(_, range)| share(piece, range)) {
            return refuse(14, place, &format!("{}{whose} on {name}", pieces.word));
        }
    }
    Ok(())
}
