//! Questions to ask: every call on a file, around the sizes that it needs.

use super::question::{Question, Symbol, ROW};
use crate::generator::prng::Random;
use crate::reader::{judge, key_block, texts};

/// Bytes at either end of lent memory; rows begin at a multiple of 4.
const MARGIN: usize = 32;

/// Memory to lend: all 0, all FF, or drawn.
fn memory(length: usize, random: &mut Random) -> Vec<u8> {
    match random.below(4) {
        0 => vec![0; length],
        1 => vec![0xFF; length],
        _ => random.bytes(length),
    }
}

/// The rows call with so many rows lent.
pub fn rows<'a>(file: &'a [u8], lent: usize, random: &mut Random) -> Question<'a> {
    let memory = memory(ROW * lent + 2 * MARGIN, random);
    Question::on(Symbol::Rows, file).lending(memory, MARGIN)
}

/// The key block with so many bytes lent, at any address.
pub fn block<'a>(file: &'a [u8], room: usize, random: &mut Random) -> Question<'a> {
    let margin = MARGIN + random.below(8) as usize;
    Question::on(Symbol::KeyBlock, file).lending(memory(room + 2 * margin, random), margin)
}

pub fn citation(file: &[u8], key: u32) -> Question<'_> {
    Question { asked: key, ..Question::on(Symbol::Citation, file) }
}

/// The metadata text of that number, with an outside text.
pub fn metadata<'a>(file: &'a [u8], outside: &'a [u8], number: u32) -> Question<'a> {
    let runs = [file, outside, &[]];
    Question { asked: number, runs, ..Question::on(Symbol::Metadata, file) }
}

pub fn read_block<'a>(runs: &'a [Vec<u8>; 3]) -> Question<'a> {
    let [directory, doubles, characters] = runs;
    Question { runs: [directory, doubles, characters], ..Question::on(Symbol::ReadBlock, &[]) }
}

/// K of a file, and the bytes of its key block; 0 where it has none.
pub fn needs(file: &[u8]) -> (usize, usize) {
    let verdict = key_block(file, &mut []).verdict;
    (judge(file).keys as usize, if verdict.number == 25 { verdict.place as usize } else { 0 })
}

/// The sizes just around a needed one, and some others.
fn around(needed: usize, others: &[usize]) -> Vec<usize> {
    let mut sizes = vec![0, 1, needed.saturating_sub(1), needed, needed + 1];
    sizes.extend(others);
    sizes.sort_unstable();
    sizes.dedup();
    sizes
}

/// The numbers of metadata texts to ask for: those around the number of texts,
/// and some far from it.
pub fn numbers(file: &[u8]) -> Vec<u32> {
    let mut numbers: Vec<u32> = around(texts(file), &[]).iter().map(|&each| each as u32).collect();
    numbers.extend([255, 65_536, 1 << 31, u32::MAX]);
    numbers
}

/// Key numbers of every sort: ASCII ones, others, and some beyond 16 bits.
const ASKED: [u32; 12] =
    [0, 1024, 1026, 2049, 2057, 3073, 4097, 60_003, 65_535, 65_536 + 1026, 1 << 31, u32::MAX];

/// Questions of every call on a file, around the sizes that it needs.
pub fn every_call<'a>(file: &'a [u8], random: &mut Random) -> Vec<Question<'a>> {
    let (keys, bytes) = needs(file);
    let mut list = vec![Question::on(Symbol::Judge, file), Question::on(Symbol::Ground, file)];
    list.extend(around(keys, &[255, 256, 257]).iter().map(|&lent| rows(file, lent, random)));
    list.extend(around(bytes, &[bytes + 60]).iter().map(|&room| block(file, room, random)));
    list.extend(ASKED.map(|key| citation(file, key)));
    list.extend([&b""[..], b"<"].map(|outside| metadata(file, outside, 0)));
    list.extend(numbers(file).iter().map(|&number| metadata(file, b"an outside text", number)));
    list
}
