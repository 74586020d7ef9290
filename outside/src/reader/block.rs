//! The key block: three little-endian runs that hold the keys and their
//! values without gaps or sharing, and the call that reads them back.

use super::clauses::registered;
use super::keys::{rules15to19, KeyEntry, Runs};
use super::number::{double_bits, Order};
use super::tables::*;
use super::verdict::{refuse, Refusal, Verdict, ACCEPTED};

/// The largest start index an entry's fourth SHORT can hold.
const LAST_START: usize = 65_535;

/// The three runs of a block while it is written, in elements.
struct Growing {
    numbers: Vec<u16>,
    doubles: Vec<u64>,
    characters: Vec<u8>,
}

impl Growing {
    /// The elements that a location holds so far: the next value's start.
    fn start(&self, location: u16) -> usize {
        match location {
            KEY_DIRECTORY => self.numbers.len(),
            DOUBLES => self.doubles.len(),
            _ => self.characters.len(),
        }
    }

    /// Adds the value of an entry behind those before it.
    fn add(&mut self, runs: &Runs, entry: &KeyEntry) {
        let first = u64::from(entry.index);
        let elements = first..first + u64::from(entry.count);
        match entry.location {
            KEY_DIRECTORY => self.numbers.extend(elements.map(|i| runs.number(i))),
            DOUBLES => {
                let run = runs.doubles.expect("rule 17 is kept");
                self.doubles.extend(elements.map(|i| double_bits(runs.order, run, 8 * i)));
            }
            _ => {
                let run = runs.characters.expect("rule 17 is kept");
                self.characters.extend(elements.map(|i| run[i as usize]));
            }
        }
    }
}

/// Rule 24; the three runs where it is kept, of the minor revision that was read.
pub fn write(runs: &Runs, minor: u16, keys: &[KeyEntry]) -> Result<[Vec<u8>; 3], Refusal> {
    let header = 4 + 4 * keys.len();
    let mut growing =
        Growing { numbers: vec![0; header], doubles: Vec::new(), characters: Vec::new() };
    growing.numbers[..4].copy_from_slice(&[1, 1, minor, keys.len() as u16]);
    for (position, entry) in keys.iter().enumerate() {
        let mut fourth = entry.index;
        if entry.location != 0 {
            let start = growing.start(entry.location);
            if start > LAST_START {
                let clause = format!("start in {}", entry.location);
                return refuse(24, u32::from(entry.key), &clause);
            }
            fourth = start as u16;
            growing.add(runs, entry);
        }
        let at = 4 + 4 * position;
        let written = [entry.key, entry.location, entry.count, fourth];
        growing.numbers[at..at + 4].copy_from_slice(&written);
    }
    Ok([
        growing.numbers.iter().flat_map(|number| number.to_le_bytes()).collect(),
        growing.doubles.iter().flat_map(|double| double.to_le_bytes()).collect(),
        growing.characters,
    ])
}

/// Rules 15 to 19 on three runs, as a request left them; an empty run is an
/// absent tag.
fn examine(
    [directory, doubles, characters]: [&[u8]; 3],
    rules: Rules,
) -> Result<(u16, Vec<KeyEntry>), Refusal> {
    let present = |run| if <[u8]>::is_empty(run) { None } else { Some(run) };
    let runs = Runs {
        order: Order::Little,
        directory,
        doubles: present(doubles),
        characters: present(characters),
    };
    rules15to19(&runs, rules)
}

/// The answer on a key block: K and the minor revision, both 0 if it is refused.
#[derive(Clone, Copy, Debug, PartialEq, Eq)]
pub struct ReadBack {
    pub verdict: Verdict,
    pub keys: u32,
    pub minor: u32,
}

/// Reads a key block without a file.
pub fn read_block(directory: &[u8], doubles: &[u8], characters: &[u8]) -> ReadBack {
    read_block_by([directory, doubles, characters], IN_FORCE)
}

/// The same by the rules as a request left them.
pub fn read_block_by(runs: [&[u8]; 3], rules: Rules) -> ReadBack {
    match examine(runs, rules) {
        Ok((minor, keys)) => {
            ReadBack { verdict: ACCEPTED, keys: keys.len() as u32, minor: u32::from(minor) }
        }
        Err(refusal) => ReadBack { verdict: refusal.verdict, keys: 0, minor: 0 },
    }
}

pub fn read_block_clause(
    directory: &[u8],
    doubles: &[u8],
    characters: &[u8],
) -> (Verdict, &'static str) {
    match examine([directory, doubles, characters], IN_FORCE) {
        Ok(_) => (ACCEPTED, "accepted"),
        Err(refusal) => (refusal.verdict, registered(&format!("block {}", refusal.clause))),
    }
}
