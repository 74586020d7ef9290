//! The fast judge agrees with the second reader: else its speed says nothing.

mod common;

use outside::compiled::{expected, fast};
use outside::generator::large::{many_masked, many_pieces, many_texts, Words};
use outside::generator::plan::{Plan, Tag};
use outside::generator::{masked_sample, sample, targeted_files};
use outside::reader::tables::{BOTH, TAGS};
use outside::reader::{leads_on, reading_list, texts, word_runs, Order};
use std::collections::BTreeSet;

fn agrees(file: &[u8]) {
    let (got, want) = (fast(file), expected(file));
    assert_eq!(got, want, "{file:02X?}");
    assert_eq!(outside::fast::verdict(file), (want.verdict, want.place));
}

#[test]
fn the_fast_judge_agrees_on_a_hundred_thousand_files() {
    (0..100_000).for_each(|number| agrees(&sample(41, number).file));
}

#[test]
fn the_fast_judge_agrees_on_the_targeted_cases() {
    targeted_files(42).for_each(|file| agrees(&file));
}

#[test]
fn the_fast_judge_agrees_on_the_files_of_real_producers() {
    let files = common::field();
    files.iter().for_each(|file| agrees(file));
    let accepted = files.iter().filter(|file| expected(file).verdict == 0).count();
    assert_eq!((files.len(), accepted), (101, 54), "as docs/FIELD.md has them");
}

/// Every number there is in the place of the minor revision.
#[test]
fn the_fast_judge_agrees_on_every_minor_revision() {
    for order in [Order::Little, Order::Big] {
        let mut laid = common::plan_like_a(order, &common::keys().encode()).lay();
        let third = laid.spot(34735).value + 4;
        for minor in 0..=65_535 {
            laid.put_short(third, minor);
            agrees(&laid.bytes);
        }
    }
}

#[test]
fn the_fast_judge_agrees_on_files_with_a_mask() {
    let mut of_masks = BTreeSet::new();
    for number in 0..50_000 {
        let file = masked_sample(43, number).file;
        agrees(&file);
        let answer = expected(&file);
        of_masks.extend((answer.verdict == 28).then_some(answer.place));
    }
    assert_eq!(of_masks, (4..=14).chain([27]).collect::<BTreeSet<u32>>());
}

/// A mask behind very many strips and among them, in one strip and in as many, and
/// a strip on each part of it.
#[test]
fn the_fast_judge_agrees_on_a_mask_beside_many_strips() {
    for order in [Order::Little, Order::Big] {
        for (masks, among) in [(1, false), (1, true), (2_000, false), (2_000, true)] {
            let file = many_masked(order, 2_000, 3, masks, among);
            assert_eq!(expected(&file).verdict, 0);
            assert!(leads_on(&file));
            agrees(&file);
            let offsets = word_runs(&file)[0].bytes.start as usize;
            let parts: Vec<u64> = reading_list(&file).iter().map(|part| part.start).collect();
            for strip in [0, 999, 1_000, 1_999] {
                for part in &parts[parts.len() - 10..] {
                    let mut on = file.clone();
                    let at = offsets + 4 * strip;
                    on[at..at + 4].copy_from_slice(&match order {
                        Order::Little => (*part as u32).to_le_bytes(),
                        Order::Big => (*part as u32).to_be_bytes(),
                    });
                    assert_eq!((expected(&on).verdict, expected(&on).place), (28, 14));
                    agrees(&on);
                }
            }
        }
    }
}

/// Every tag of the table, and some behind it, with a value of its own.
#[test]
fn the_fast_judge_agrees_where_every_value_is_long() {
    for order in [Order::Little, Order::Big] {
        let mut plan = Plan::new(order);
        let others = [60_000, 60_001, 60_002];
        for tag in TAGS.iter().map(|row| row.tag).chain(others) {
            plan.set(Tag::longs(tag, &[1, 2, 3, 4, 5, 6]));
        }
        agrees(&plan.lay().bytes);
    }
}

/// As many metadata tags as there is room for, and pieces between their values;
/// one byte further, the first piece is on one of them.
#[test]
fn the_fast_judge_agrees_on_many_texts() {
    for order in [Order::Little, Order::Big] {
        for (strips, bytes) in [(2, 1), (1_013, 2), (5_000, 3)] {
            let [file, masked] = [false, true].map(|masked| {
                let file = many_texts(order, strips, bytes, masked);
                assert_eq!((expected(&file).verdict, texts(&file)), (0, 1_013));
                assert_eq!(leads_on(&file), masked);
                agrees(&file);
                file
            });
            agrees(&masked[..masked.len() - 1]);
            agrees(&file[..file.len() - 1]);
            let mut long = file.clone();
            let byte = file.len() - 4 * strips as usize + if order == Order::Big { 3 } else { 0 };
            long[byte] += 1;
            assert_eq!((expected(&long).verdict, expected(&long).place), (14, 0));
            agrees(&long);
        }
    }
}

/// An accepted file, and the same without its last byte.
fn agrees_whole_and_cut(file: &[u8]) {
    assert_eq!(expected(file).verdict, 0);
    agrees(file);
    agrees(&file[..file.len() - 1]);
}

#[test]
fn the_fast_judge_agrees_on_many_pieces() {
    for (words, &family) in Words::all().flat_map(|w| BOTH.iter().map(move |f| (w, f))) {
        for pieces in [1, 2, 3, 40_000].iter().filter(|_| words.fit(family)) {
            agrees_whole_and_cut(&many_pieces(words, family, *pieces, 3));
        }
    }
}

/// LONG and SHORT words of strips between metadata tags and beside a mask.
#[test]
fn the_fast_judge_agrees_on_words_of_each_type() {
    for words in Words::all() {
        for masked in [false, true] {
            agrees_whole_and_cut(&many_texts(words, 2_000, 3, masked));
        }
        for (masks, among) in [(1, false), (1, true), (2_000, false), (2_000, true)] {
            agrees_whole_and_cut(&many_masked(words, 2_000, 3, masks, among));
        }
    }
}
