//! The key directory: rules 15 to 19 in one pass.

use super::number::short_at;
use super::tags::slot::{CHARACTERS, DOUBLES, KEY_DIRECTORY};
use super::tags::Tags;
use super::{refuse, Refusal};

const FREE: u8 = 0;
const NUMBER: u8 = 1;
const REAL: u8 = 2;
const TEXT: u8 = 3;

/// The kinds of the known keys. Each stands less than 32 above 1024, 2048,
/// 3072 or 4096, and these are the four rows.
static KINDS: [[u8; 32]; 4] = {
    let mut rows = [[FREE; 32]; 4];
    rows[0] = filled(rows[0], &[0, 1], NUMBER);
    rows[0] = filled(rows[0], &[2], TEXT);
    rows[1] = filled(rows[1], &[0, 2, 3, 4, 6, 8, 12], NUMBER);
    rows[1] = filled(rows[1], &[1], TEXT);
    rows[1] = filled(rows[1], &[5, 7, 9, 10, 11, 13], REAL);
    rows[2] = filled([REAL; 32], &[24, 25, 26, 27, 28, 29, 30, 31], FREE);
    rows[2] = filled(rows[2], &[0, 2, 3, 4], NUMBER);
    rows[2] = filled(rows[2], &[1], TEXT);
    rows[3] = filled(rows[3], &[0, 2, 3], NUMBER);
    rows[3] = filled(rows[3], &[1], TEXT);
    rows
};

const fn filled(mut row: [u8; 32], columns: &[usize], kind: u8) -> [u8; 32] {
    let mut at = 0;
    while at < columns.len() {
        row[columns[at]] = kind;
        at += 1;
    }
    row
}

#[inline(always)]
fn kind_of(key: u16) -> u8 {
    let (row, column) = ((key >> 10).wrapping_sub(1), key & 1023);
    if row < 4 && column < 32 {
        KINDS[usize::from(row)][usize::from(column)]
    } else {
        FREE
    }
}

/// Rule 19: whether a SHORT key may have this number.
#[inline(always)]
fn allowed(key: u16, number: u16) -> bool {
    match key {
        1024 | 1025 => number == 1 || number == 2,
        2048 => number == 4326,
        2054 => number == 9102,
        3072 => matches!(number, 32601..=32661 | 32701..=32761),
        3076 => number == 9001,
        4096 => matches!(number, 3855 | 4979 | 5714 | 5715 | 5773 | 5798),
        _ => true,
    }
}

/// The elements that the locations hold; none where a tag is absent.
struct Held<'f> {
    numbers: u32,
    doubles: u32,
    characters: &'f [u8],
}

impl Held<'_> {
    /// Rule 17 for the key's location, count and index.
    #[inline(always)]
    fn keeps17(&self, kind: u8, location: u16, count: u16, index: u16) -> bool {
        let end = u32::from(index) + u32::from(count);
        match location {
            0 => count == 1 && kind <= NUMBER,
            34735 => kind == FREE && count != 0 && end <= self.numbers,
            34736 => match kind {
                REAL => count == 1 && end <= self.doubles,
                FREE => count != 0 && end <= self.doubles,
                _ => false,
            },
            34737 if count != 0 && end as usize <= self.characters.len() => match kind {
                TEXT => self.characters[end as usize - 1] == b'|',
                kind => kind == FREE,
            },
            _ => false,
        }
    }
}

/// Rule 16 for the entries behind one that breaks rule 17.
#[cold]
#[inline(never)]
fn rule17<T, const BIG: bool>(rest: &[[u8; 8]], key: u16) -> Result<T, Refusal> {
    let mut last = key;
    for entry in rest {
        let later = short_at::<BIG, 8>(entry, 0);
        if later <= last {
            return refuse(16, u32::from(later));
        }
        last = later;
    }
    refuse(17, u32::from(key))
}

/// What the pass over the keys finds for rules 18 and 19.
#[derive(Default)]
struct Numbers {
    model: u16,
    raster: u16,
    /// Bits: 1024, 1025, 2048 and 3072 are present.
    present: u32,
    /// The first key whose number is not allowed, or 0.
    fault: u16,
}

/// Rules 15 to 19; the number of key 1025.
#[inline(always)]
pub fn rules15to19<const BIG: bool>(file: &[u8], tags: &Tags) -> Result<u16, Refusal> {
    let run = tags.value(file, KEY_DIRECTORY, 2);
    let Some((header, rest)) = run.split_first_chunk::<8>() else { return refuse(15, 0) };
    let number = |at: usize| short_at::<BIG, 8>(header, 2 * at);
    let (keys, room) = (usize::from(number(3)), rest.as_chunks::<8>().0);
    let right = (number(0), number(1)) == (1, 1) && number(2) <= 1;
    if !right || keys > 256 || room.len() < keys {
        return refuse(15, 0);
    }
    let held = Held {
        numbers: tags.entry(KEY_DIRECTORY).count,
        doubles: tags.entry(DOUBLES).count,
        characters: tags.value(file, CHARACTERS, 1),
    };
    let numbers = pass::<BIG>(&held, &room[..keys])?;
    rule18(&numbers)?;
    if numbers.fault != 0 {
        return refuse(19, u32::from(numbers.fault));
    }
    Ok(numbers.raster)
}

/// Rules 16 and 17.
#[inline(always)]
fn pass<const BIG: bool>(held: &Held, entries: &[[u8; 8]]) -> Result<Numbers, Refusal> {
    let mut found = Numbers::default();
    let mut last = -1;
    let mut rest = entries.iter();
    while let Some(entry) = rest.next() {
        let part = |at: usize| short_at::<BIG, 8>(entry, 2 * at);
        let (key, number) = (part(0), part(3));
        if i32::from(key) <= last {
            return refuse(16, u32::from(key));
        }
        last = i32::from(key);
        let kind = kind_of(key);
        if !held.keeps17(kind, part(1), part(2), number) {
            return rule17::<_, BIG>(rest.as_slice(), key);
        }
        if kind != NUMBER {
            continue;
        }
        match key {
            1024 => (found.model, found.present) = (number, 1),
            1025 => (found.raster, found.present) = (number, found.present | 2),
            2048 => found.present |= 4,
            3072 => found.present |= 8,
            _ => {}
        }
        if !allowed(key, number) && found.fault == 0 {
            found.fault = key;
        }
    }
    Ok(found)
}

/// Rule 18: the needed keys, lowest first.
#[inline(always)]
fn rule18(found: &Numbers) -> Result<(), Refusal> {
    let has = |bit: u32| found.present & bit != 0;
    if !has(1) {
        return refuse(18, 1024);
    }
    if !has(2) {
        return refuse(18, 1025);
    }
    if found.model == 2 && !has(4) {
        return refuse(18, 2048);
    }
    if found.model == 1 && !has(8) {
        return refuse(18, 3072);
    }
    Ok(())
}
