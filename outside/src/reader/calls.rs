//! The calls on a file: each gives rules 1 to 22, 27 and 28 first, then its
//! own.

use super::block;
use super::clauses::registered;
use super::examine::{examine, Accepted};
use super::ground::Georeference;
use super::tables::*;
use super::verdict::{refuse, Refusal, Verdict, ACCEPTED};
use std::fmt;
use std::ops::Range;

/// The answer on a whole file.
#[derive(Clone, Copy, Debug, PartialEq)]
pub struct Judged {
    pub verdict: Verdict,
    pub keys: u32,
    /// The minor revision of the key directory.
    pub minor: u32,
    pub georeference: Georeference,
    pub corners: [f64; 4],
}

/// The verdict on a file, K, the minor revision, the georeference and the
/// corners.
pub fn judge(file: &[u8]) -> Judged {
    judge_by(file, IN_FORCE)
}

/// The same by the rules as a request left them.
pub fn judge_by(file: &[u8], rules: Rules) -> Judged {
    match examine(file, rules) {
        Ok(accepted) => Judged {
            verdict: ACCEPTED,
            keys: accepted.keys.len() as u32,
            minor: u32::from(accepted.minor),
            georeference: accepted.georeference,
            corners: accepted.corners,
        },
        Err(refusal) => Judged {
            verdict: refusal.verdict,
            keys: 0,
            minor: 0,
            georeference: Georeference::Scaled([0.0; 6]),
            corners: [0.0; 4],
        },
    }
}

/// The verdict and the clause behind it.
fn named<T>(outcome: Result<T, Refusal>) -> (Verdict, &'static str) {
    match outcome {
        Ok(_) => (ACCEPTED, "accepted"),
        Err(refusal) => (refusal.verdict, registered(&refusal.clause)),
    }
}

pub fn judge_clause(file: &[u8]) -> (Verdict, &'static str) {
    named(examine(file, IN_FORCE))
}

/// One key row: kind 0 SHORT, 1 DOUBLE, 2 ASCII, 3 other; the bytes of the
/// value, and the byte place of the directory entry.
#[derive(Clone, Copy, Debug, Default, PartialEq, Eq)]
pub struct Row {
    pub key: u32,
    pub kind: u32,
    pub first: u32,
    pub length: u32,
    pub entry: u32,
}

impl Row {
    /// Its numbers in their order.
    pub fn numbers(&self) -> [u32; 5] {
        [self.key, self.kind, self.first, self.length, self.entry]
    }

    /// The row of these numbers.
    pub const fn of([key, kind, first, length, entry]: [u32; 5]) -> Row {
        Row { key, kind, first, length, entry }
    }
}

/// A key line of the bench program.
impl fmt::Display for Row {
    fn fmt(&self, f: &mut fmt::Formatter) -> fmt::Result {
        write!(f, "{}", self.numbers().map(|number| number.to_string()).join(" "))
    }
}

impl Accepted<'_> {
    /// The first byte in the file of the value of a present tag.
    fn start(&self, tag: u16) -> u64 {
        let entry = self.image.directory.find(tag).expect("rule 17 is kept");
        entry.value().expect("rule 10 is kept").start
    }

    /// The row of the key at `position` in the key directory, whose header and
    /// entries have 8 bytes each.
    fn row(&self, position: usize) -> Row {
        let entry = &self.keys[position];
        let place = self.start(KEY_DIRECTORY) + 8 + 8 * position as u64;
        let (index, count) = (u64::from(entry.index), u64::from(entry.count));
        let (first, length) = match entry.location {
            0 => (place + 6, 2),
            KEY_DIRECTORY => (self.start(KEY_DIRECTORY) + 2 * index, 2 * count),
            DOUBLES => (self.start(DOUBLES) + 8 * index, 8 * count),
            _ => (self.start(CHARACTERS) + index, count),
        };
        Row {
            key: u32::from(entry.key),
            kind: kind_of(entry.key) as u32,
            first: first as u32,
            length: length as u32,
            entry: place as u32,
        }
    }

    pub fn rows(&self) -> Vec<Row> {
        (0..self.keys.len()).map(|position| self.row(position)).collect()
    }
}

/// Rules 1 to 22, 27 and 28, then 23: the rows of a file for `lent` rows of room.
fn rows_for(file: &[u8], lent: usize) -> Result<Vec<Row>, Refusal> {
    let rows = examine(file, IN_FORCE)?.rows();
    if lent < rows.len() {
        return refuse(23, rows.len() as u32, "fewer rows than K");
    }
    Ok(rows)
}

/// Fills the first K lent rows and gives K.
pub fn key_rows(file: &[u8], lent: &mut [Row]) -> (Verdict, u32) {
    match rows_for(file, lent.len()) {
        Ok(rows) => {
            lent[..rows.len()].copy_from_slice(&rows);
            (ACCEPTED, rows.len() as u32)
        }
        Err(refusal) => (refusal.verdict, 0),
    }
}

pub fn key_rows_clause(file: &[u8], lent: usize) -> (Verdict, &'static str) {
    named(rows_for(file, lent))
}

/// A citation as the part of the file that holds it.
#[derive(Clone, Copy, Debug, PartialEq, Eq)]
pub struct Cited {
    pub verdict: Verdict,
    pub start: usize,
    pub length: usize,
}

/// Rules 1 to 22, 27 and 28, then 26: the row of the ASCII key asked for.
fn cited_row(file: &[u8], key: u32) -> Result<Row, Refusal> {
    let rows = examine(file, IN_FORCE)?.rows();
    let found = rows.iter().find(|row| row.key == key);
    let ascii = KEYS.iter().any(|row| u32::from(row.key) == key && row.kind == Kind::Ascii);
    match (found, ascii) {
        (Some(row), true) => Ok(*row),
        (None, true) => refuse(26, key, "ASCII key absent"),
        (Some(_), false) => refuse(26, key, "present key not ASCII"),
        (None, false) => refuse(26, key, "neither present nor ASCII"),
    }
}

/// The text of an ASCII key, less its final "|".
pub fn citation(file: &[u8], key: u32) -> Cited {
    match cited_row(file, key) {
        Ok(row) => {
            let (start, length) = (row.first as usize, row.length as usize - 1);
            Cited { verdict: ACCEPTED, start, length }
        }
        Err(refusal) => Cited { verdict: refusal.verdict, start: 0, length: 0 },
    }
}

pub fn citation_clause(file: &[u8], key: u32) -> (Verdict, &'static str) {
    named(cited_row(file, key))
}

/// A metadata text as a part of the file (0) or of the outside text (1).
#[derive(Clone, Copy, Debug, PartialEq, Eq)]
pub struct Text {
    pub verdict: Verdict,
    pub from: u32,
    pub start: usize,
    pub length: usize,
}

impl Accepted<'_> {
    /// The values of all 50909, in the directory's order.
    fn texts(&self) -> Vec<Range<u64>> {
        let entries = self.image.directory.all(METADATA);
        entries.map(|entry| entry.value().expect("rule 10 is kept")).collect()
    }
}

/// How many 50909 an accepted file has; 0 for a refused one.
pub fn texts(file: &[u8]) -> usize {
    examine(file, IN_FORCE).map_or(0, |accepted| accepted.texts().len())
}

/// Rules 1 to 22, 27 and 28, then 29: where the text of that number stands. None is
/// the outside text, which is number 0 where there is no 50909 at all.
fn text_of(file: &[u8], number: u32) -> Result<Option<Range<u64>>, Refusal> {
    let texts = examine(file, IN_FORCE)?.texts();
    if texts.is_empty() {
        return match number {
            0 => Ok(None),
            _ => refuse(29, number, "no 50909 and not number 0"),
        };
    }
    match texts.into_iter().nth(number as usize) {
        Some(value) => Ok(Some(value)),
        None => refuse(29, number, "not below the number of 50909"),
    }
}

/// The value of the 50909 of that number, counting from 0, or the whole
/// outside text.
pub fn metadata(file: &[u8], outside: &[u8], number: u32) -> Text {
    match text_of(file, number) {
        Ok(Some(value)) => Text {
            verdict: ACCEPTED,
            from: 0,
            start: value.start as usize,
            length: (value.end - value.start) as usize,
        },
        Ok(None) => Text { verdict: ACCEPTED, from: 1, start: 0, length: outside.len() },
        Err(refusal) => Text { verdict: refusal.verdict, from: 0, start: 0, length: 0 },
    }
}

pub fn metadata_clause(file: &[u8], number: u32) -> (Verdict, &'static str) {
    named(text_of(file, number))
}

/// The lengths in bytes of the three runs of a key block.
#[derive(Clone, Copy, Debug, PartialEq, Eq)]
pub struct Block {
    pub verdict: Verdict,
    pub lengths: [usize; 3],
}

/// Rules 1 to 22, 27 and 28, then 24, then 25: the three runs of the key block.
fn block_for(file: &[u8], room: usize, rules: Rules) -> Result<[Vec<u8>; 3], Refusal> {
    let accepted = examine(file, rules)?;
    let runs = block::write(&accepted.runs, accepted.minor, &accepted.keys)?;
    let bytes: usize = runs.iter().map(Vec::len).sum();
    if room < bytes {
        return refuse(25, bytes as u32, "output too short");
    }
    Ok(runs)
}

/// Writes the key block at the start of `out`.
pub fn key_block(file: &[u8], out: &mut [u8]) -> Block {
    key_block_by(file, out, IN_FORCE)
}

/// The same by the rules as a request left them.
pub fn key_block_by(file: &[u8], out: &mut [u8], rules: Rules) -> Block {
    match block_for(file, out.len(), rules) {
        Ok(runs) => {
            let whole = runs.concat();
            out[..whole.len()].copy_from_slice(&whole);
            Block { verdict: ACCEPTED, lengths: [runs[0].len(), runs[1].len(), runs[2].len()] }
        }
        Err(refusal) => Block { verdict: refusal.verdict, lengths: [0; 3] },
    }
}

pub fn key_block_clause(file: &[u8], room: usize) -> (Verdict, &'static str) {
    named(block_for(file, room, IN_FORCE))
}
