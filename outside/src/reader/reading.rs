//! The reading list: the bytes of a file that its verdict may rest on.

use super::directory::{head, Directory};
use super::examine::examine;
use super::number::index;
use super::tables::{Rules, IN_FORCE};
use super::verdict::Refusal;
use std::ops::Range;

/// The reading list, as the verdict of rules 1 to 22, 27 and 28 fixes it.
pub fn reading_list(file: &[u8]) -> Vec<Range<u64>> {
    reading_list_by(file, IN_FORCE)
}

/// The reading list by the rules as a request left them: the first 8 bytes, what
/// the stages give of the image, and behind them what they give of a mask.
pub fn reading_list_by(file: &[u8], rules: Rules) -> Vec<Range<u64>> {
    // how far the image's rules were kept, and those of the mask
    let (image, mask) = match examine(file, rules).map_err(|refusal| refusal.verdict) {
        Ok(_) => (0, Some(0)),
        Err(verdict) if verdict.number == 28 => (0, Some(verdict.place)),
        Err(verdict) => (verdict.number, None),
    };
    let mut list = Vec::new();
    list.push(0..(file.len() as u64).min(8));
    let Ok((_, at)) = head(file) else { return list };
    let directory = Directory::open(file, rules);
    list.extend(stages(image, at, &directory));
    let next = directory.ok().and_then(|image| Some((image.leads_to()?, image)));
    if let (Some(number), Some((at, image))) = (mask, next) {
        list.extend(stages(number, at, &image.mask(at)));
    }
    list
}

/// What the stages give of a directory at `at` with this number: its count bytes
/// from rule 5 on, the whole of it from 6 on, the values of its table from 8 on.
fn stages(number: u32, at: u64, directory: &Result<Directory, Refusal>) -> Vec<Range<u64>> {
    // the list treats 27 as it treats 8
    let number = if number == 27 { 8 } else { number };
    let reached = |rule: u32| number == 0 || number >= rule;
    let mut list = Vec::new();
    if reached(5) {
        list.push(at..at + 2);
    }
    if let (true, Ok(directory)) = (reached(6), directory) {
        list.push(directory.range());
        if reached(8) {
            list.extend(directory.listed_values().into_iter().map(|(_, value)| value));
        }
    }
    list
}

/// For each byte of the file, whether it is on the reading list.
pub fn listed(file: &[u8]) -> Vec<bool> {
    let mut bytes = vec![false; file.len()];
    for range in reading_list(file) {
        bytes[index(range.start)..index(range.end)].fill(true);
    }
    bytes
}
