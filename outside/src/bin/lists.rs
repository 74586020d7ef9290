//! lists SEED MOST: writes files of every verdict, of 28 for every rule of a mask,
//! at most MOST of each, and as many with more than one metadata tag, and with a
//! next offset, with their reading lists and verdicts, for outside/closed.
//!
//! Each is 4-byte numbers, the lowest byte first: length, verdict, place, the
//! number of parts of the list, first byte and end of each; then the bytes.

use outside::generator::{sample, targeted_files};
use outside::reader::{judge, judgements, leads_on, reading_list, several_texts, Verdict};
use std::collections::BTreeMap;
use std::io::Write;
use std::process::ExitCode;

/// So many files of the mix are looked at.
const MIXED: u64 = 20_000;

/// The kind of a file: its verdict, with the place of 28, whether it has more than
/// one metadata tag, and whether it has a next offset.
type Kind = (u32, u32, bool, bool);

fn kind(file: &[u8]) -> Kind {
    let Verdict { number, place } = judge(file).verdict;
    (number, if number == 28 { place } else { 0 }, several_texts(file), leads_on(file))
}

/// Kinds that must be there. Without a whole directory no tag is there.
fn needed() -> impl Iterator<Item = Kind> {
    let numbers = || judgements().filter(|number| *number != 28);
    let whole = move || numbers().filter(|number| *number == 0 || *number > 5);
    let alone = numbers().map(|number| (number, 0, false, false));
    let several = whole().map(|number| (number, 0, true, false));
    let before_mask = whole().map(|number| (number, 0, false, true));
    let of_mask = (4..=14).chain([27]).map(|place| (28, place, false, true));
    alone.chain(several).chain(before_mask).chain(of_mask)
}

fn main() -> ExitCode {
    let words: Vec<u64> = std::env::args().skip(1).filter_map(|word| word.parse().ok()).collect();
    let &[seed, most] = words.as_slice() else {
        eprintln!("lists SEED MOST");
        return ExitCode::FAILURE;
    };
    let mixed = (0..MIXED).map(|number| sample(seed, number).file);
    let mut seen: BTreeMap<Kind, u64> = needed().map(|kind| (kind, 0)).collect();
    let mut bytes = Vec::new();
    for file in mixed.chain(targeted_files(seed)) {
        let count = seen.entry(kind(&file)).or_insert(0);
        *count += 1;
        if *count <= most {
            bytes.extend(record(&file));
        }
    }
    assert!(seen.values().all(|count| *count > 0), "a verdict without a file: {seen:?}");
    match std::io::stdout().write_all(&bytes) {
        Ok(()) => ExitCode::SUCCESS,
        Err(_) => ExitCode::FAILURE,
    }
}

fn record(file: &[u8]) -> Vec<u8> {
    let (verdict, list) = (judge(file).verdict, reading_list(file));
    let mut numbers = vec![file.len() as u64, verdict.number.into(), verdict.place.into()];
    numbers.push(list.len() as u64);
    numbers.extend(list.iter().flat_map(|part| [part.start, part.end]));
    let mut bytes: Vec<u8> =
        numbers.iter().flat_map(|number| (*number as u32).to_le_bytes()).collect();
    bytes.extend_from_slice(file);
    bytes
}
