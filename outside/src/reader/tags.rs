//! The tags of the table: rules 9 to 12.

use super::directory::{Directory, Entry};
use super::number::{long, short};
use super::tables::*;
use super::verdict::{refuse, Refusal};

/// The numbers of a SHORT or LONG tag.
pub fn numbers(directory: &Directory, entry: &Entry) -> Vec<u32> {
    let bytes = directory.bytes(entry);
    let (order, count) = (directory.order, u64::from(entry.count));
    match entry.kind {
        SHORT => (0..count).map(|i| u32::from(short(order, bytes, 2 * i))).collect(),
        _ => (0..count).map(|i| long(order, bytes, 4 * i)).collect(),
    }
}

/// The numbers of a needed tag.
pub fn needed(directory: &Directory, tag: u16) -> Vec<u32> {
    numbers(directory, directory.find(tag).expect("rule 9 is kept"))
}

/// The one number of a needed tag of count 1.
pub fn one(directory: &Directory, tag: u16) -> u32 {
    needed(directory, tag)[0]
}

/// Rule 9: every needed tag is present, those of the picture's own family
/// among them.
pub fn rule9(directory: &Directory, family: Family) -> Result<(), Refusal> {
    let needed = |row: &&TagRow| row.need == Need::Always || row.need == Need::In(family);
    for row in directory.table.iter().filter(needed) {
        if directory.find(row.tag).is_none() {
            return refuse(9, u32::from(row.tag), &format!("{} absent", row.tag));
        }
    }
    Ok(())
}

/// The present tags of the table, lowest first, with each entry of a tag.
fn present<'d>(directory: &'d Directory) -> impl Iterator<Item = (&'d TagRow, &'d Entry)> {
    directory.table.iter().flat_map(|row| directory.all(row.tag).map(move |entry| (row, entry)))
}

/// Rule 10: each entry of a present tag of the table has its type and count.
pub fn rule10(directory: &Directory) -> Result<(), Refusal> {
    for (row, entry) in present(directory) {
        let fault = |what: &str| {
            refuse(10, u32::from(row.tag), &format!("{} {what}", directory.named(entry)))
        };
        if !row.kinds.contains(&entry.kind) {
            return fault("type");
        }
        if !row.count.holds(entry.count) {
            return fault("count");
        }
    }
    Ok(())
}

/// Rule 11: each value of a present tag is allowed.
pub fn rule11(directory: &Directory) -> Result<(), Refusal> {
    for (row, entry) in present(directory).filter(|(row, _)| row.allowed != Allowed::Any) {
        for number in numbers(directory, entry) {
            if let Some(how) = outside(row.allowed, number) {
                return refuse(11, u32::from(row.tag), &format!("{} {how}", row.tag));
            }
        }
    }
    Ok(())
}

/// Rule 12: the tags agree with each other.
pub fn rule12(directory: &Directory, family: Family) -> Result<(), Refusal> {
    let bits = needed(directory, BITS);
    let samples = one(directory, SAMPLES);
    if bits.len() as u64 != u64::from(samples) {
        return refuse(12, u32::from(BITS), "258 count is not samples");
    }
    if bits.iter().any(|&each| each != bits[0]) {
        return refuse(12, u32::from(BITS), "258 values differ");
    }
    let compression = one(directory, COMPRESSION);
    if compression != 1 && bits[0] != 1 {
        return refuse(12, u32::from(COMPRESSION), &format!("259 is {compression}, bits not 1"));
    }
    if compression != 1 && samples != 1 {
        return refuse(12, u32::from(COMPRESSION), &format!("259 is {compression}, samples not 1"));
    }
    let pieces = pieces_needed(directory, family);
    let (offsets, byte_counts) = family.places();
    for tag in [offsets, byte_counts] {
        let count = u64::from(directory.find(tag).expect("rule 9 is kept").count);
        if count < pieces {
            return refuse(12, u32::from(tag), &format!("{tag} too few"));
        }
        if count > pieces {
            return refuse(12, u32::from(tag), &format!("{tag} too many"));
        }
    }
    Ok(())
}

/// How many pieces the picture has: length / rows per strip, rounded up; or
/// the tiles across times the tiles down, each rounded up.
fn pieces_needed(directory: &Directory, family: Family) -> u64 {
    let parts = |whole: u16, part: u16| rounded_up(one(directory, whole), one(directory, part));
    match family {
        Family::Strips => parts(LENGTH, ROWS_PER_STRIP),
        Family::Tiles => parts(WIDTH, TILE_WIDTH) * parts(LENGTH, TILE_LENGTH),
    }
}

/// The quotient, rounded up.
fn rounded_up(whole: u32, part: u32) -> u64 {
    let (whole, part) = (u64::from(whole), u64::from(part));
    whole / part + u64::from(whole % part != 0)
}
