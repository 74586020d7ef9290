//! The picture never shows: every byte off the reading list repainted at
//! random, all answers stay the same, for files of every verdict.

mod common;

use common::{held, repainted, UNTOUCHED};
use outside::generator::prng::Random;
use outside::generator::{random, targeted, Call};
use outside::reader::{
    citation, judge, judgements, key_block, key_rows, listed, metadata, texts, Georeference, Row,
    Verdict,
};
use std::collections::{BTreeMap, BTreeSet};

/// Every answer on a file, doubles by their bits and parts by their bytes.
#[derive(Debug, PartialEq)]
struct Answers {
    verdict: Verdict,
    keys: u32,
    minor: u32,
    doubles: Vec<u64>,
    affine: bool,
    rows: Vec<(Verdict, u32, Vec<Row>)>,
    citations: Vec<(Verdict, usize, Vec<u8>)>,
    texts: Vec<(Verdict, u32, usize, Vec<u8>)>,
    blocks: Vec<(Verdict, [usize; 3], Vec<u8>)>,
    list: Vec<bool>,
}

const ASKED: [u32; 8] = [1024, 1026, 2049, 3073, 4097, 60003, 65_535, 66_562];

fn rows(file: &[u8], lent: usize) -> (Verdict, u32, Vec<Row>) {
    let mut rows = vec![UNTOUCHED; lent];
    let (verdict, keys) = key_rows(file, &mut rows);
    (verdict, keys, rows)
}

fn cited(file: &[u8], key: u32) -> (Verdict, usize, Vec<u8>) {
    let cited = citation(file, key);
    (cited.verdict, cited.start, file[cited.start..cited.start + cited.length].to_vec())
}

/// The metadata text of that number.
fn text(file: &[u8], number: u32) -> (Verdict, u32, usize, Vec<u8>) {
    let outside = b"the outside text";
    let text = metadata(file, outside, number);
    let from: &[u8] = if text.from == 0 { file } else { outside };
    let part = &from[text.start..text.start + text.length];
    (text.verdict, text.from, text.start, part.to_vec())
}

/// Every number of a text that the file has, of very many the first and the last
/// ones, and some that it has not.
fn numbers(file: &[u8]) -> Vec<u32> {
    let all = texts(file) as u32;
    let asked = (0..all + 2).filter(|number| all < 60 || *number < 20 || number + 20 > all);
    asked.chain([65_536, 1 << 31, u32::MAX]).collect()
}

fn block(file: &[u8], room: usize) -> (Verdict, [usize; 3], Vec<u8>) {
    let mut out = vec![0xC3; room];
    let block = key_block(file, &mut out);
    (block.verdict, block.lengths, out)
}

/// All answers, with the metadata texts of these numbers.
fn answers(file: &[u8], numbers: &[u32]) -> Answers {
    let judged = judge(file);
    let (affine, six) = match judged.georeference {
        Georeference::Scaled(six) => (false, six),
        Georeference::Affine(six) => (true, six),
    };
    Answers {
        verdict: judged.verdict,
        keys: judged.keys,
        minor: judged.minor,
        doubles: six.iter().chain(&judged.corners).map(|double| double.to_bits()).collect(),
        affine,
        rows: [0, 2, 3, 12, 256].iter().map(|&lent| rows(file, lent)).collect(),
        citations: ASKED.iter().map(|&key| cited(file, key)).collect(),
        texts: numbers.iter().map(|&number| text(file, number)).collect(),
        blocks: [0, 32, 100, 3_000].iter().map(|&room| block(file, room)).collect(),
        list: listed(file),
    }
}

/// A few files of each targeted clause, and files of the random mix.
fn files() -> Vec<Vec<u8>> {
    let mut of_clause: BTreeMap<(&str, bool), usize> = BTreeMap::new();
    let mut files: Vec<Vec<u8>> = Vec::new();
    for case in targeted(21) {
        let seen = of_clause.entry((case.clause, case.broken)).or_insert(0);
        *seen += 1;
        if *seen <= 3 && !matches!(case.call, Call::ReadBlock(_)) {
            files.push(case.file);
        }
    }
    files.extend(random(21, 3_000).into_iter().map(|sample| sample.file));
    files
}

#[test]
fn repainting_changes_no_answer() {
    let mut random = Random::new(22);
    let (mut verdicts, mut of_masks) = (BTreeSet::new(), BTreeSet::new());
    let (mut painted, mut several) = (0, 0);
    for file in files() {
        let numbers = numbers(&file);
        let before = answers(&file, &numbers);
        verdicts.insert(before.verdict.number);
        of_masks.extend((before.verdict.number == 28).then_some(before.verdict.place));
        for _ in 0..2 {
            let other = repainted(&file, &mut random);
            painted += usize::from(other != file);
            several += usize::from(other != file && texts(&file) > 1);
            assert_eq!(answers(&other, &numbers), before);
        }
    }
    assert_eq!(verdicts, judgements().collect::<BTreeSet<u32>>());
    assert_eq!(of_masks, (4..=14).chain([27]).collect::<BTreeSet<u32>>());
    assert!(painted > 3_000, "{painted}");
    assert!(several > 500, "{several} of several texts");
}

#[test]
fn in_an_accepted_file_no_byte_of_a_piece_is_listed() {
    let mut seen = [[0; 2]; 2];
    for sample in random(23, 2_000).into_iter().filter(|sample| !sample.damaged) {
        let list = listed(&sample.file);
        for (which, (tiled, pieces)) in pictures(&sample.file).into_iter().enumerate() {
            seen[which][usize::from(tiled)] += 1;
            for piece in pieces {
                assert!(list[piece].iter().all(|listed| !listed));
            }
        }
    }
    assert!(seen[0].iter().all(|files| *files > 300), "strips and tiles: {seen:?}");
    assert!(seen[1].iter().all(|files| *files > 80), "those of masks: {seen:?}");
}

/// The bytes of the pieces of both pictures, and nothing else, drawn anew in an
/// accepted file.
#[test]
fn repainting_the_pieces_alone_changes_no_answer() {
    let mut random_bytes = Random::new(25);
    for sample in random(24, 1_000).into_iter().filter(|sample| !sample.damaged) {
        let mut other = sample.file.clone();
        for piece in pictures(&sample.file).into_iter().flat_map(|(_, pieces)| pieces) {
            let fresh = random_bytes.bytes(piece.len());
            other[piece].copy_from_slice(&fresh);
        }
        let numbers = numbers(&sample.file);
        assert_eq!(answers(&other, &numbers), answers(&sample.file, &numbers));
    }
}

/// A picture: whether it is in tiles, and the bytes of each strip or tile.
type Picture = (bool, Vec<std::ops::Range<usize>>);

/// The pictures of an accepted file, the image's and then a mask's, read apart
/// from the reader.
fn pictures(file: &[u8]) -> Vec<Picture> {
    let number = |at: usize, width: usize| held::number(file[0] == b'I', file, at, width) as usize;
    let image = number(4, 4);
    let mask = number(image + 2 + 12 * number(image, 2), 4);
    let found = [image, mask].into_iter().filter(|directory| *directory != 0);
    found.map(|directory| picture(file, directory)).collect()
}

/// The picture of the directory at this place.
fn picture(file: &[u8], directory: usize) -> Picture {
    let number = |at: usize, width: usize| held::number(file[0] == b'I', file, at, width) as usize;
    let numbers = |tag: usize| -> Vec<usize> {
        let entries = (0..number(directory, 2)).map(|at| directory + 2 + 12 * at);
        let entry = entries.into_iter().find(|&at| number(at, 2) == tag).expect("a needed tag");
        let (width, count) = (if number(entry + 2, 2) == 3 { 2 } else { 4 }, number(entry + 4, 4));
        let start = if width * count > 4 { number(entry + 8, 4) } else { entry + 8 };
        (0..count).map(|at| number(start + width * at, width)).collect()
    };
    let mut tags = (0..number(directory, 2)).map(|at| number(directory + 2 + 12 * at, 2));
    let tiled = tags.any(|tag| tag == 324);
    let (offsets, counts) = if tiled { (324, 325) } else { (273, 279) };
    let (offsets, counts) = (numbers(offsets), numbers(counts));
    (tiled, offsets.iter().zip(&counts).map(|(&offset, &count)| offset..offset + count).collect())
}
