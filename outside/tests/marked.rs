//! The marked examples of document 01, with requests C-13 and C-14, on file A by
//! its bytes.

mod common;

use common::*;
use outside::reader::{
    judge, key_block, key_rows, listed, metadata, Georeference, Judged, Verdict,
};

/// What one change to file A must give.
fn refused(file: &[u8], number: u32, place: u32) {
    let judged = judge(file);
    assert_eq!(judged.verdict, verdict(number, place));
    assert_eq!((judged.keys, judged.minor), (0, 0));
    assert_eq!(bits(judged.corners), [0; 4]);
    let Georeference::Scaled(six) = judged.georeference else { panic!("scaled after a refusal") };
    assert_eq!(six.map(f64::to_bits), [0; 6]);
}

#[test]
fn file_a_is_accepted_with_its_corners() {
    let judged = judge(&FILE_A);
    assert_eq!((judged.verdict, judged.keys, judged.minor), (verdict(0, 0), 3, 0));
    assert_eq!(bits(judged.corners), bits([500000.0, 4000000.0, 500002.0, 3999999.0]));
    let six = [0.0, 0.0, 500000.0, 4000000.0, 0.5, 0.5];
    assert_eq!(judged.georeference, Georeference::Scaled(six));
}

#[test]
fn file_a_gives_the_lines_of_the_bench_program() {
    let mut lent = [UNTOUCHED; 256];
    assert_eq!(key_rows(&FILE_A, &mut lent), (verdict(0, 0), 3));
    assert_eq!(lent[0].to_string(), "1024 0 244 2 238");
    assert_eq!(lent[1].to_string(), "1025 0 252 2 246");
    assert_eq!(lent[2].to_string(), "3072 0 260 2 254");
    assert!(lent[3..].iter().all(|row| *row == UNTOUCHED));
}

#[test]
fn pixel_is_point_moves_the_second_corner() {
    let judged = judge(&changed(KEYS + 8 + 8 + 6, &[2, 0]));
    assert_eq!(judged.verdict, verdict(0, 0));
    assert_eq!(bits(judged.corners), bits([500000.0, 4000000.0, 500001.5, 3999999.5]));
}

#[test]
fn minor_revision_1_is_said_and_changes_nothing_else() {
    let judged = judge(&changed(KEYS + 4, &[1, 0]));
    assert_eq!(judged, Judged { minor: 1, ..judge(&FILE_A) });
    assert_eq!(judged.verdict, verdict(0, 0));
}

#[test]
fn one_change_each() {
    refused(&[], 1, 0);
    refused(&changed(0, &[0x4D, 0x4D]), 3, 0);
    refused(&changed(NEXT_OFFSET, &[8, 0, 0, 0]), 28, 8);
    refused(&changed(OFFSET_OF_STRIP, &[0x07, 0x01]), 13, 0);
    refused(&changed(OFFSET_OF_STRIP, &[0x05, 0x01]), 14, 0);
    refused(&changed(KEYS + 4, &[2, 0]), 15, 0);
    let exchanged = [0x01, 0x04, 0, 0, 1, 0, 1, 0, 0x00, 0x04, 0, 0, 1, 0, 1, 0];
    refused(&changed(KEYS + 8, &exchanged), 16, 1024);
    refused(&changed(KEYS + 8 + 8 + 2, &[0xB1, 0x87]), 17, 1025);
    refused(&changed(KEYS + 8 + 6, &[2, 0]), 18, 2048);
    refused(&changed(KEYS + 8 + 16 + 6, &[0x96, 0x7F]), 19, 3072);
    refused(&changed(SCALE, &[0; 8]), 21, 33550);
}

#[test]
fn two_rows_lent() {
    let mut lent = [UNTOUCHED; 2];
    assert_eq!(key_rows(&FILE_A, &mut lent), (verdict(23, 3), 0));
    assert_eq!(lent, [UNTOUCHED; 2]);
    assert_eq!(judge(&FILE_A).verdict, verdict(0, 0), "the rows call alone gives 23");
}

#[test]
fn the_reading_list_of_file_a_ends_before_its_strip() {
    let list = listed(&FILE_A);
    let expected: Vec<bool> = (0..270).map(|at| at < 262).collect();
    assert_eq!(list, expected);
}

/// How many bytes, from the start, a changed file A has on its list; that no
/// byte behind them is on it is tested too.
fn listed_to(file: &[u8], number: u32) -> usize {
    assert_eq!(judge(file).verdict.number, number);
    let list = listed(file);
    let end = list.iter().position(|listed| !listed).unwrap_or(list.len());
    assert!(list[end..].iter().all(|listed| !listed));
    end
}

#[test]
fn the_reading_list_grows_with_the_verdict() {
    const ENTRY_0: usize = 10;
    assert_eq!(listed_to(&FILE_A[..5], 1), 5);
    assert_eq!(listed_to(&changed(0, &[0]), 2), 8);
    assert_eq!(listed_to(&changed(2, &[43]), 3), 8);
    assert_eq!(listed_to(&changed(4, &[9]), 4), 8);
    assert_eq!(listed_to(&changed(8, &[0]), 5), 10);
    assert_eq!(listed_to(&changed(ENTRY_0, &[2]), 6), 158);
    assert_eq!(listed_to(&changed(ENTRY_0 + 4, &[0]), 7), 158);
    assert_eq!(listed_to(&changed(ENTRY_0, &[0xFF, 0]), 9), 262);
    assert_eq!(listed_to(&changed(ENTRY_0 + 8, &[0]), 11), 262);
    assert_eq!(listed_to(&changed(KEYS, &[0]), 15), 262);
    assert_eq!(listed_to(&changed(SCALE, &[0; 8]), 21), 262);
    // of a mask at 9 there is nothing, and one at 8 is the image's directory
    assert_eq!(listed_to(&changed(NEXT_OFFSET, &[9]), 28), 262);
    assert_eq!(listed_to(&changed(NEXT_OFFSET, &[8]), 28), 262);
    let largest = [0xFF, 0xFF, 0xFF, 0xFF, 0xFF, 0xFF, 0xEF, 0x7F];
    assert_eq!(listed_to(&changed(SCALE, &largest), 22), 262);
}

#[test]
fn a_value_of_unknown_type_or_tag_is_not_listed() {
    const TYPE_OF_KEYS: usize = 10 + 11 * 12 + 2;
    assert_eq!(listed_to(&changed(TYPE_OF_KEYS, &[13]), 10), 230);
    assert_eq!(listed_to(&changed(TYPE_OF_KEYS, &[1]), 10), 230 + 16);
    assert_eq!(listed_to(&changed(TYPE_OF_KEYS - 2, &[0xAE]), 9), 230);
}

#[test]
fn the_key_block_of_file_a_is_its_key_directory() {
    let mut out = [0xEE; 40];
    let block = key_block(&FILE_A, &mut out);
    assert_eq!((block.verdict, block.lengths), (verdict(0, 0), [32, 0, 0]));
    assert_eq!(out[..32], FILE_A[KEYS..KEYS + 32]);
    assert_eq!(out[32..], [0xEE; 8]);
}

#[test]
fn file_a_has_no_metadata_so_the_outside_text_stands() {
    let text = metadata(&FILE_A, b"outside", 0);
    assert_eq!((text.verdict, text.from, text.start, text.length), (verdict(0, 0), 1, 0, 7));
    let text = metadata(&FILE_A, b"", 0);
    assert_eq!((text.verdict, text.from, text.start, text.length), (verdict(0, 0), 1, 0, 0));
    let text = metadata(&FILE_A, b"outside", 1);
    assert_eq!((text.verdict, text.from, text.start, text.length), (verdict(29, 1), 0, 0, 0));
}

#[test]
fn one_byte_less_or_more() {
    refused(&FILE_A[..269], 13, 0);
    refused(&FILE_A[..262], 13, 0);
    refused(&FILE_A[..261], 7, 34735);
    refused(&FILE_A[..157], 5, 0);
    refused(&FILE_A[..9], 4, 0);
    let longer = [&FILE_A[..], &[1, 2, 3]].concat();
    assert_eq!(judge(&longer).verdict, verdict(0, 0));
}

/// Rule 1's upper end. It lends 4 GiB of zeros that nobody touches, so it
/// needs the address space and is run on demand.
#[test]
#[ignore = "lends a run of 4 GiB"]
fn the_longest_file_and_one_byte_more() {
    let run = vec![0u8; 4_294_967_296];
    let verdicts: [Verdict; 2] = [judge(&run).verdict, judge(&run[1..]).verdict];
    assert_eq!(verdicts, [verdict(1, 0), verdict(2, 0)]);
    assert_eq!(outside::reader::reading_list(&run), vec![0..8]);
}
