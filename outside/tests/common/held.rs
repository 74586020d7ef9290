//! The keys that a file or a key block holds, and the header before them, read
//! apart from the reader.

use std::ops::Range;

/// A key with its location, count and elements, doubles by bits.
pub type Held = (u64, u64, u64, Vec<u64>);

/// The `width` bytes at `at` as a number.
pub fn number(little: bool, bytes: &[u8], at: usize, width: usize) -> u64 {
    let run = &bytes[at..at + width];
    let fold = |total: u64, byte: &u8| total << 8 | u64::from(*byte);
    if little {
        run.iter().rev().fold(0, fold)
    } else {
        run.iter().fold(0, fold)
    }
}

/// The keys held by three runs.
fn held(little: bool, [directory, doubles, characters]: [&[u8]; 3]) -> Vec<Held> {
    let short = |at: usize| number(little, directory, 2 * at, 2);
    let mut list = Vec::new();
    for at in (0..short(3) as usize).map(|position| 4 + 4 * position) {
        let (location, count, first) = (short(at + 1), short(at + 2), short(at + 3) as usize);
        let run = match location {
            0 => (directory, at + 3, 2),
            34735 => (directory, first, 2),
            34736 => (doubles, first, 8),
            _ => (characters, first, 1),
        };
        let element = |i: usize| number(little, run.0, (run.1 + i) * run.2, run.2);
        list.push((short(at), location, count, (0..count as usize).map(element).collect()));
    }
    list
}

/// The first four numbers of a key directory.
fn header(little: bool, directory: &[u8]) -> [u64; 4] {
    std::array::from_fn(|at| number(little, directory, 2 * at, 2))
}

/// Where the values of 34735, 34736 and 34737 stand in a file; an absent one
/// is empty.
pub fn places(file: &[u8]) -> [Range<usize>; 3] {
    let little = file[0] == b'I';
    let field = |at: u64, width: usize| number(little, file, at as usize, width);
    let directory = field(4, 4);
    let value = |tag: u64, size: u64| {
        let mut entries = (0..field(directory, 2)).map(|at| directory + 2 + 12 * at);
        let Some(entry) = entries.find(|&entry| field(entry, 2) == tag) else { return 0..0 };
        let bytes = field(entry + 4, 4) * size;
        let start = if bytes > 4 { field(entry + 8, 4) } else { entry + 8 };
        start as usize..(start + bytes) as usize
    };
    [value(34735, 2), value(34736, 8), value(34737, 1)]
}

/// The three runs of a file.
fn runs(file: &[u8]) -> [&[u8]; 3] {
    places(file).map(|place| &file[place])
}

/// Holds the three runs of a block to the accepted file that it is of: the
/// same header, and the same keys and values in the same order, without gaps or
/// sharing.
pub fn same_keys(file: &[u8], [directory, doubles, characters]: [&[u8]; 3]) {
    let little = file[0] == b'I';
    assert_eq!(header(true, directory), header(little, runs(file)[0]));
    let written = held(true, [directory, doubles, characters]);
    assert_eq!(written, held(little, runs(file)));
    let elements = |location: u64| -> usize {
        written.iter().filter(|held| held.1 == location).map(|held| held.3.len()).sum()
    };
    let header = 4 + 4 * written.len();
    assert_eq!(directory.len(), 2 * (header + elements(34735)), "no gaps, no sharing");
    assert_eq!(doubles.len(), 8 * elements(34736));
    assert_eq!(characters.len(), elements(34737));
}
