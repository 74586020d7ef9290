//! Request C-12, more than one metadata tag: what it changes and what it leaves,
//! and each reading of its words by a file of its own.

mod common;

use common::kept::{files, keep};
use common::{held, keys, plan_like_a, tags, tiled, verdict};
use outside::generator::plan::{Laid, Plan, Tag};
use outside::generator::sample;
use outside::reader::tables::{C_11, C_12};
use outside::reader::{judge, judge_by, judgements_by, metadata, reading_list, texts, Order, Text};
use std::collections::BTreeSet;

/// Whether two metadata tags of a file's directory stand side by side.
fn repeats(file: &[u8]) -> bool {
    tags(file).windows(2).any(|pair| pair == [50909, 50909])
}

#[test]
fn a_file_without_two_side_by_side_keeps_its_verdict_its_place_and_its_list() {
    let kept = files(91).filter(|file| !repeats(file));
    let (compared, numbers) = keep(kept, C_11, C_12);
    assert_eq!(numbers, judgements_by(C_12).collect::<BTreeSet<u32>>());
    assert!(compared > 20_000, "{compared} files");
}

/// Every other file that gets so far was refused by rule 6.
#[test]
fn a_file_with_two_side_by_side_was_refused_by_rule_6() {
    let (mut anew, mut numbers) = (0, BTreeSet::new());
    for file in files(91).filter(|file| repeats(file)) {
        let (was, is) = (judge_by(&file, C_11).verdict, judge_by(&file, C_12).verdict);
        if is.number == 0 || is.number > 6 {
            assert_eq!(was, verdict(6, 50909), "{file:02X?}");
            anew += 1;
        }
        numbers.insert(is.number);
    }
    let later = judgements_by(C_12).filter(|number| *number == 0 || *number > 5);
    let later: BTreeSet<u32> = later.collect();
    assert!(later.is_subset(&numbers), "{numbers:?}");
    assert!(anew > 5_000, "{anew} files");
}

/// Files like file A with these texts, in strips and in tiles, of both orders.
fn with(texts: &[&[u8]]) -> Vec<Plan> {
    let mut plans = Vec::new();
    for order in [Order::Little, Order::Big] {
        let plan = plan_like_a(order, &keys().encode());
        plans.extend([plan.clone(), tiled(plan)]);
    }
    for plan in &mut plans {
        texts.iter().for_each(|text| plan.add(Tag::bytes(50909, 1, text)));
    }
    plans
}

const THREE: [&[u8]; 3] = [b"<MD_Metadata>1</MD_Metadata>", b"two", b"<third/>"];

/// The verdict on a laid out file with some fields changed.
fn of(laid: &Laid, change: impl Fn(&mut Laid)) -> (u32, u32) {
    let mut laid = laid.clone();
    change(&mut laid);
    let verdict = judge(&laid.bytes).verdict;
    (verdict.number, verdict.place)
}

#[test]
fn three_are_accepted_and_each_is_handed_back_by_its_number() {
    for laid in with(&THREE).iter().map(Plan::lay) {
        assert_eq!(judge(&laid.bytes).verdict, verdict(0, 0));
        assert_eq!(texts(&laid.bytes), 3);
        for (number, (text, spot)) in (0..).zip(THREE.iter().zip(laid.all(50909))) {
            let got = metadata(&laid.bytes, b"outside", number);
            let want =
                Text { verdict: verdict(0, 0), from: 0, start: spot.value, length: text.len() };
            assert_eq!(got, want);
            assert_eq!(&laid.bytes[got.start..got.start + got.length], *text);
        }
        for number in [3, 4, 65_536, 65_539, u32::MAX] {
            let nothing = Text { verdict: verdict(29, number), from: 0, start: 0, length: 0 };
            assert_eq!(metadata(&laid.bytes, b"outside", number), nothing);
        }
    }
}

#[test]
fn the_order_is_the_directorys_wherever_the_values_lie() {
    for mut laid in with(&[b"abcdef", b"ghijkl", b"mnopqr"]).iter().map(Plan::lay) {
        let spots = laid.all(50909);
        laid.put_long(spots[0].entry + 8, spots[2].value as u32);
        laid.put_long(spots[2].entry + 8, spots[0].value as u32);
        let read = |number: u32| {
            let text = metadata(&laid.bytes, b"", number);
            &laid.bytes[text.start..text.start + text.length]
        };
        assert_eq!([read(0), read(1), read(2)], [&b"mnopqr"[..], b"ghijkl", b"abcdef"]);
    }
}

#[test]
fn without_a_tag_number_0_is_the_outside_text_and_no_other_is() {
    for laid in with(&[]).iter().map(Plan::lay) {
        for outside in [&b""[..], b"outside"] {
            let text = metadata(&laid.bytes, outside, 0);
            let length = outside.len();
            assert_eq!(text, Text { verdict: verdict(0, 0), from: 1, start: 0, length });
            for number in [1, 2, u32::MAX] {
                let nothing = Text { verdict: verdict(29, number), from: 0, start: 0, length: 0 };
                assert_eq!(metadata(&laid.bytes, outside, number), nothing);
            }
        }
    }
}

#[test]
fn only_50909_may_stand_twice_and_only_side_by_side() {
    for laid in with(&THREE).iter().map(Plan::lay) {
        let spots = laid.all(50909);
        let named = |tags: [u16; 3]| {
            of(&laid, |laid| (0..3).for_each(|at| laid.put_short(spots[at].entry, tags[at])))
        };
        assert_eq!(named([50909, 50909, 50909]), (0, 0));
        assert_eq!(named([50908, 50909, 50909]), (0, 0));
        assert_eq!(named([50909, 50909, 50910]), (0, 0));
        assert_eq!(named([50909, 50910, 50909]), (6, 50909));
        assert_eq!(named([50909, 50908, 50909]), (6, 50908));
        assert_eq!(named([50908, 50908, 50909]), (6, 50908));
        assert_eq!(named([50909, 50910, 50910]), (6, 50910));
        assert_eq!(named([50910, 50909, 50909]), (6, 50909));
        assert_eq!(named([34735, 50909, 50909]), (6, 34735));
    }
}

#[test]
fn rules_7_and_10_test_each() {
    for laid in with(&[b"first text", b"second", b"a third"]).iter().map(Plan::lay) {
        for spot in &laid.all(50909) {
            assert_eq!(of(&laid, |laid| laid.put_long(spot.entry + 4, 0)), (7, 50909));
            assert_eq!(of(&laid, |laid| laid.put_long(spot.entry + 8, 9)), (7, 50909));
            assert_eq!(of(&laid, |laid| laid.put_long(spot.entry + 8, 6)), (7, 50909));
            let end = laid.n() as u32 / 2 * 2 - 4;
            assert_eq!(of(&laid, |laid| laid.put_long(spot.entry + 8, end)), (7, 50909));
            for kind in [0, 2, 6, 7, 13] {
                assert_eq!(of(&laid, |laid| laid.put_short(spot.entry + 2, kind)), (10, 50909));
            }
        }
        assert_eq!(of(&laid, |_| ()), (0, 0));
    }
}

/// The list has the value of each, and rule 14 names a piece on any of them.
#[test]
fn every_value_is_on_the_list() {
    for laid in with(&THREE).iter().map(Plan::lay) {
        let list = reading_list(&laid.bytes);
        let (offsets, counts) = laid.places();
        for spot in laid.all(50909) {
            assert!(list.contains(&(spot.value as u64..(spot.value + spot.size) as u64)));
            for byte in [spot.value, spot.value + spot.size - 1] {
                let on = |laid: &mut Laid| {
                    laid.put_long(offsets.value, byte as u32);
                    laid.put_long(counts.value, 1);
                };
                assert_eq!(of(&laid, on), (14, 0));
            }
        }
    }
}

/// By hand, apart from the reader: where the values of a file's 50909 stand.
fn values(file: &[u8]) -> Vec<(usize, usize)> {
    let number = |at: usize, width: usize| held::number(file[0] == b'I', file, at, width) as usize;
    let directory = number(4, 4);
    let entries = (0..number(directory, 2)).map(|at| directory + 2 + 12 * at);
    let texts = entries.filter(|&entry| number(entry, 2) == 50909);
    let value = |entry: usize| match number(entry + 4, 4) {
        count if count > 4 => (number(entry + 8, 4), count),
        count => (entry + 8, count),
    };
    texts.map(value).collect()
}

#[test]
fn the_texts_of_drawn_files_are_where_their_entries_say() {
    let mut most = 0;
    for number in (0..6_000).step_by(2) {
        let file = sample(93, number).file;
        let values = values(&file);
        most = most.max(values.len());
        assert_eq!(texts(&file), values.len());
        for (number, &(start, length)) in (0..).zip(&values) {
            let want = Text { verdict: verdict(0, 0), from: 0, start, length };
            assert_eq!(metadata(&file, b"outside", number), want);
        }
    }
    assert!(most > 1_000, "{most} texts in one file");
}
