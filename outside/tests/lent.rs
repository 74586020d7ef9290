//! A refusal changes nothing in lent rows or output; lent sizes around the
//! needed one; bytes and rows behind the answer stay.

mod common;

use common::*;
use outside::generator::{random, targeted, Call, Case};
use outside::reader::{
    citation, judge, key_block, key_rows, metadata, read_block, texts, Cited, Row, Text, Verdict,
};

/// The refused cases, at most `most` of each rule.
fn refused(most: usize) -> Vec<Case> {
    let mut seen = [0; 30];
    let mut cases = targeted(31);
    cases.retain(|case| {
        let rule = case.want.number as usize;
        seen[rule] += 1;
        rule != 0 && seen[rule] <= most && matches!(case.call, Call::Judge)
    });
    cases
}

#[test]
fn a_refusal_leaves_lent_memory_and_gives_zeros() {
    for case in refused(60) {
        let want = case.want;
        for size in [0, 1, 3, 40, 300] {
            let mut lent = vec![UNTOUCHED; size];
            assert_eq!(key_rows(&case.file, &mut lent), (want, 0));
            assert!(lent.iter().all(|row| *row == UNTOUCHED));
            let mut out = vec![0x77; size];
            let block = key_block(&case.file, &mut out);
            assert_eq!((block.verdict, block.lengths), (want, [0; 3]));
            assert!(out.iter().all(|byte| *byte == 0x77));
        }
        let nothing = Cited { verdict: want, start: 0, length: 0 };
        assert_eq!(citation(&case.file, 1026), nothing);
        let nothing = Text { verdict: want, from: 0, start: 0, length: 0 };
        for number in [0, 1, 2, u32::MAX] {
            assert_eq!(metadata(&case.file, b"outside", number), nothing);
        }
        let judged = judge(&case.file);
        assert_eq!((judged.keys, judged.minor), (0, 0));
    }
}

#[test]
fn a_refused_key_block_gives_zeros() {
    let mut refused = [0; 20];
    for case in targeted(37) {
        let Call::ReadBlock([directory, doubles, characters]) = &case.call else { continue };
        let back = read_block(directory, doubles, characters);
        assert_eq!(back.verdict, case.want);
        if case.want != (Verdict { number: 0, place: 0 }) {
            assert_eq!((back.keys, back.minor), (0, 0));
            refused[case.want.number as usize] += 1;
        }
    }
    assert!(refused[15..].iter().all(|cases| *cases > 8), "{refused:?}");
}

/// The rows of an accepted file and its key block, each with room to spare.
fn whole(file: &[u8]) -> (Vec<Row>, Vec<u8>) {
    let mut out = vec![0; 1 << 16];
    let lengths = key_block(file, &mut out).lengths;
    out.truncate(lengths.iter().sum());
    (rows(file), out)
}

#[test]
fn lent_rows_around_k() {
    for sample in random(32, 600).into_iter().filter(|sample| !sample.damaged) {
        let (rows, _) = whole(&sample.file);
        let k = rows.len();
        for lent in [0, 1, k - 1, k, k + 1, k + 9] {
            let mut run = vec![UNTOUCHED; lent];
            let answer = key_rows(&sample.file, &mut run);
            if lent < k {
                assert_eq!(answer, (verdict(23, k as u32), 0));
                assert!(run.iter().all(|row| *row == UNTOUCHED));
            } else {
                assert_eq!(answer, (verdict(0, 0), k as u32));
                assert_eq!(run[..k], rows[..]);
                assert!(run[k..].iter().all(|row| *row == UNTOUCHED));
            }
        }
    }
}

#[test]
fn output_around_the_length_needed() {
    for sample in random(33, 600).into_iter().filter(|sample| !sample.damaged) {
        let (_, bytes) = whole(&sample.file);
        let needed = bytes.len();
        for room in [0, 1, needed - 1, needed, needed + 1, needed + 50] {
            let mut out = vec![0xAB; room];
            let block = key_block(&sample.file, &mut out);
            if room < needed {
                assert_eq!(block.verdict, verdict(25, needed as u32));
                assert_eq!(block.lengths, [0; 3]);
                assert!(out.iter().all(|byte| *byte == 0xAB));
            } else {
                assert_eq!(block.verdict, verdict(0, 0));
                assert_eq!(out[..needed], bytes[..]);
                assert!(out[needed..].iter().all(|byte| *byte == 0xAB));
            }
        }
    }
}

#[test]
fn refusals_of_the_calls_leave_lent_memory() {
    for case in targeted(34) {
        let Call::Block(room) = case.call else { continue };
        let mut out = vec![0x31; room];
        let block = key_block(&case.file, &mut out);
        assert_eq!(block.verdict, case.want);
        if case.want != (Verdict { number: 0, place: 0 }) {
            assert!(out.iter().all(|byte| *byte == 0x31));
            assert_eq!(block.lengths, [0; 3]);
        }
    }
}

/// A number that no text has: 29 with that number, and nothing else.
#[test]
fn a_refused_number_gives_zeros() {
    let mut several = 0;
    for sample in random(36, 1_200).into_iter().filter(|sample| !sample.damaged) {
        let all = texts(&sample.file) as u32;
        several += usize::from(all > 1);
        for number in [all.max(1), all + 1, all + 256, 65_536 + all, u32::MAX] {
            let nothing = Text { verdict: verdict(29, number), from: 0, start: 0, length: 0 };
            assert_eq!(metadata(&sample.file, b"outside", number), nothing);
        }
        for number in 0..all.max(1) {
            assert_eq!(metadata(&sample.file, b"outside", number).verdict, verdict(0, 0));
        }
    }
    assert!(several > 100, "{several} files of several texts");
}

#[test]
fn any_bytes_and_any_key_number_end() {
    for sample in random(35, 3_000) {
        for key in [0, 1026, 4097, 65_535, 65_536, u32::MAX] {
            let cited = citation(&sample.file, key);
            assert!(cited.start + cited.length <= sample.file.len());
        }
    }
}
