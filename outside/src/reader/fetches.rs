//! The words of a picture, offset and byte count of each of its pieces: where they
//! stand, and how often a judge may fetch each, as request C-16 has it.

use super::calls::judge;
use super::directory::Directory;
use super::pieces::{parts, pieces, share};
use super::tables::{Family, IN_FORCE};
use super::verdict::Verdict;
use std::ops::Range;

/// The offsets, or the byte counts, of all pieces of a picture. Those that stand in
/// their entry are none: a directory is read for other rules too.
pub struct WordRun {
    pub what: String,
    pub bytes: Range<u64>,
    pub pieces: u64,
    /// How many pieces, from the first on, the verdict rests on.
    pub needed: u64,
    /// How often each word may be fetched.
    pub most: u64,
}

/// The runs of a file that keeps rules 1 to 12, the image's and then those of a mask
/// that keeps rules 4 to 12.
pub fn word_runs(file: &[u8]) -> Vec<WordRun> {
    // how many pieces of the image are needed, and of the mask
    let (image, mask) = match judge(file).verdict {
        Verdict { number: 0, .. } | Verdict { number: 28, place: 14 } => (u64::MAX, Some(u64::MAX)),
        // no verdict says which piece of a mask breaks 13
        Verdict { number: 28, place: 13 } => (u64::MAX, Some(0)),
        Verdict { number: 13, place } => (u64::from(place) + 1, None),
        Verdict { number: 14..=22 | 28, .. } => (u64::MAX, None),
        _ => return Vec::new(),
    };
    let directory = Directory::open(file, IN_FORCE).expect("rules 1 to 5 are kept");
    let mask = mask.zip(directory.leads_to().and_then(|at| directory.mask(at).ok()));
    let among = mask.as_ref().is_some_and(|(_, mask)| lies_among(mask, &directory));
    let mut runs = runs_of(&directory, "", image, if among { 2 } else { 1 });
    runs.extend(mask.iter().flat_map(|(needed, mask)| runs_of(mask, " of the mask", *needed, 2)));
    runs
}

fn family(directory: &Directory) -> Family {
    directory.rule27().expect("rule 27 is kept")
}

/// Whether a part of the mask's list has a byte among the pieces of the image: from
/// the lowest on, up to the end of the highest.
fn lies_among(mask: &Directory, image: &Directory) -> bool {
    let pieces = pieces(image, family(image)).list;
    let low = pieces.iter().map(|piece| piece.start).min().expect("a piece");
    let high = pieces.iter().map(|piece| piece.end).max().expect("a piece");
    parts(mask, "").iter().any(|(_, part)| share(part, &(low..high)))
}

/// The runs of a directory; `whose` is said behind each name.
fn runs_of(directory: &Directory, whose: &str, needed: u64, most: u64) -> Vec<WordRun> {
    let (offsets, byte_counts) = family(directory).places();
    let run = |(what, tag): (&str, u16)| {
        let entry = directory.find(tag).expect("rule 9 is kept");
        let (bytes, pieces) = (entry.value().expect("rule 10 is kept"), u64::from(entry.count));
        let what = format!("{what}{whose}");
        let run = WordRun { what, bytes, pieces, needed: needed.min(pieces), most };
        (!entry.in_entry()).then_some(run)
    };
    [("offsets", offsets), ("byte counts", byte_counts)].into_iter().filter_map(run).collect()
}
