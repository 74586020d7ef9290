//! File A of document 01 by its bytes, and what several tests share.
#![allow(dead_code)]

pub mod held;
pub mod kept;
pub mod masks;
pub mod questions;

use outside::generator::keyplan::{Encoded, Held, Keys};
use outside::generator::plan::{Plan, Tag};
use outside::generator::prng::Random;
use outside::reader::tables::Family;
use outside::reader::{key_rows, listed, Order, Row, Verdict};

/// File A, byte by byte: 270 bytes, little-endian.
pub const FILE_A: [u8; 270] = [
    // The head: 49 49, the number 42, the directory at 8.
    0x49, 0x49, 42, 0, 8, 0, 0, 0, //
    // 8: twelve entries of tag, type, count and value or offset.
    12, 0, //
    0x00, 0x01, 3, 0, 1, 0, 0, 0, 4, 0, 0, 0, // 256 = 4
    0x01, 0x01, 3, 0, 1, 0, 0, 0, 2, 0, 0, 0, // 257 = 2
    0x02, 0x01, 3, 0, 1, 0, 0, 0, 8, 0, 0, 0, // 258 = 8
    0x03, 0x01, 3, 0, 1, 0, 0, 0, 1, 0, 0, 0, // 259 = 1
    0x06, 0x01, 3, 0, 1, 0, 0, 0, 1, 0, 0, 0, // 262 = 1
    0x11, 0x01, 3, 0, 1, 0, 0, 0, 0x06, 0x01, 0, 0, // 273 = 262
    0x15, 0x01, 3, 0, 1, 0, 0, 0, 1, 0, 0, 0, // 277 = 1
    0x16, 0x01, 3, 0, 1, 0, 0, 0, 2, 0, 0, 0, // 278 = 2
    0x17, 0x01, 3, 0, 1, 0, 0, 0, 8, 0, 0, 0, // 279 = 8
    0x0E, 0x83, 12, 0, 3, 0, 0, 0, 158, 0, 0, 0, // 33550 at 158
    0x82, 0x84, 12, 0, 6, 0, 0, 0, 182, 0, 0, 0, // 33922 at 182
    0xAF, 0x87, 3, 0, 16, 0, 0, 0, 230, 0, 0, 0, // 34735 at 230
    // 154: the next offset.
    0, 0, 0, 0, //
    // 158: scale 0.5, 0.5, 0.
    0, 0, 0, 0, 0, 0, 0xE0, 0x3F, 0, 0, 0, 0, 0, 0, 0xE0, 0x3F, 0, 0, 0, 0, 0, 0, 0, 0, //
    // 182: tiepoint 0, 0, 0, 500000, 4000000, 0.
    0, 0, 0, 0, 0, 0, 0, 0, 0, 0, 0, 0, 0, 0, 0, 0, 0, 0, 0, 0, 0, 0, 0, 0, //
    0, 0, 0, 0, 0x80, 0x84, 0x1E, 0x41, 0, 0, 0, 0, 0x80, 0x84, 0x4E, 0x41, //
    0, 0, 0, 0, 0, 0, 0, 0, //
    // 230: 1, 1, 0, 3; then 1024 = 1, 1025 = 1, 3072 = 32633.
    1, 0, 1, 0, 0, 0, 3, 0, //
    0x00, 0x04, 0, 0, 1, 0, 1, 0, //
    0x01, 0x04, 0, 0, 1, 0, 1, 0, //
    0x00, 0x0C, 0, 0, 1, 0, 0x79, 0x7F, //
    // 262: the strip.
    0, 0, 0, 0, 0, 0, 0, 0,
];

/// Where parts of file A stand.
pub const OFFSET_OF_STRIP: usize = 10 + 5 * 12 + 8;
pub const NEXT_OFFSET: usize = 154;
pub const SCALE: usize = 158;
pub const TIEPOINT: usize = 182;
pub const KEYS: usize = 230;

/// File A with a few bytes changed.
pub fn changed(at: usize, bytes: &[u8]) -> Vec<u8> {
    let mut file = FILE_A.to_vec();
    file[at..at + bytes.len()].copy_from_slice(bytes);
    file
}

pub fn verdict(number: u32, place: u32) -> Verdict {
    Verdict { number, place }
}

/// A row that no file gives, to see whether lent rows change.
pub const UNTOUCHED: Row = Row::of([7_777_777, 88, 99, 66, 5]);

/// The rows of a file; none of a refused one.
pub fn rows(file: &[u8]) -> Vec<Row> {
    let mut rows = vec![UNTOUCHED; 256];
    let (_, keys) = key_rows(file, &mut rows);
    rows.truncate(keys as usize);
    rows
}

/// The four corner doubles by their bits.
pub fn bits(corners: [f64; 4]) -> [u64; 4] {
    corners.map(f64::to_bits)
}

/// The three keys of file A.
pub fn keys() -> Keys {
    let mut keys = Keys::default();
    for (key, number) in [(1024, 1), (1025, 1), (3072, 32633)] {
        keys.set(key, Held::Number(number));
    }
    keys
}

/// A plan like file A in either order, with these keys and random free bytes.
pub fn plan_like_a(order: Order, keys: &Encoded) -> Plan {
    let mut plan = Plan::new(order);
    (plan.fill, plan.dirty) = (9, true);
    for (tag, number) in [(256, 4), (257, 2), (258, 8), (259, 1), (262, 1), (277, 1), (278, 2)] {
        plan.set(Tag::shorts(tag, &[number]));
    }
    plan.set_pieces(Family::Strips, &[8], (true, true));
    plan.set(Tag::doubles(33550, &[0.5, 0.5, 0.0]));
    plan.set(Tag::doubles(33922, &[0.0, 0.0, 0.0, 500_000.0, 4_000_000.0, 0.0]));
    plan.set_keys(keys);
    plan
}

/// The same picture in one tile of 16 by 16.
pub fn tiled(mut plan: Plan) -> Plan {
    Family::Strips.tags().for_each(|tag| plan.remove(tag));
    plan.set(Tag::shorts(322, &[16]));
    plan.set(Tag::shorts(323, &[16]));
    plan.set_pieces(Family::Tiles, &[8], (true, true));
    plan
}

/// The plan of a mask in one strip, or one tile, behind this image.
pub fn mask_of(image: Plan, family: Family) -> Plan {
    let mut plan = Plan::mask_of(image);
    match family {
        Family::Strips => plan.set(Tag::longs(278, &[u32::MAX])),
        Family::Tiles => {
            [322, 323].iter().for_each(|&tag| plan.set(Tag::longs(tag, &[1_000_000])));
        }
    }
    plan.set_pieces(family, &[6], (true, true));
    plan
}

/// The number of so many bytes at a place of a file, where it has them.
fn number(file: &[u8], at: usize, width: usize) -> Option<usize> {
    let bytes = file.get(at..at + width)?;
    Some(held::number(file[0] == b'I', bytes, 0, width) as usize)
}

/// The tags of a file's directory with the places of their entries, read apart
/// from the reader; none where it has no whole one.
fn entries(file: &[u8]) -> Vec<(u16, usize)> {
    let whole = || -> Option<Vec<(u16, usize)>> {
        let directory = number(file, 4, 4)?;
        let places = (0..number(file, directory, 2)?).map(|at| directory + 2 + 12 * at);
        places.map(|at| number(file, at, 2).map(|tag| (tag as u16, at))).collect()
    };
    whole().unwrap_or_default()
}

/// The tags of a file's directory; none where it has no whole one.
pub fn tags(file: &[u8]) -> Vec<u16> {
    entries(file).into_iter().map(|(tag, _)| tag).collect()
}

/// Where the minor revision of a file's key directory stands, read apart from
/// the reader; none where it has no header of four numbers.
pub fn minor_at(file: &[u8]) -> Option<usize> {
    let (_, entry) = entries(file).into_iter().find(|(tag, _)| *tag == 34735)?;
    let count = number(file, entry + 4, 4)?;
    let start = number(file, entry + 8, 4)?;
    (count >= 4 && start + 8 <= file.len()).then_some(start + 4)
}

/// The minor revision itself.
pub fn minor(file: &[u8]) -> Option<usize> {
    number(file, minor_at(file)?, 2)
}

/// The files of real producers, as outside/real makes them.
pub fn field() -> Vec<Vec<u8>> {
    let folder = concat!(env!("CARGO_MANIFEST_DIR"), "/field");
    let entries = std::fs::read_dir(folder).expect("a folder of files");
    entries.map(|entry| std::fs::read(entry.expect("an entry").path()).expect("a file")).collect()
}

/// The file with every byte off its reading list drawn anew.
pub fn repainted(file: &[u8], random: &mut Random) -> Vec<u8> {
    let list = listed(file);
    let fresh = random.bytes(file.len());
    let byte = |at: usize| if list[at] { file[at] } else { fresh[at] };
    (0..file.len()).map(byte).collect()
}
