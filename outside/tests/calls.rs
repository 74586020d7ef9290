//! Every call of the compiled library against the second reader: all numbers
//! and every lent byte, with the bytes around the memory that is lent.

mod common;

use common::questions::{accepted, agree};
use common::{keys, plan_like_a, repainted, tags, FILE_A};
use outside::compiled::asking::{
    block, citation, every_call, metadata, needs, numbers, read_block, rows,
};
use outside::compiled::{ask, Question, Symbol};
use outside::generator::prng::Random;
use outside::generator::{masked_sample, random, sample, targeted, targeted_files, Call, Case};
use outside::reader::tables::KEYS;
use outside::reader::{judge, judgements, texts, Order, Verdict};
use std::collections::BTreeMap;

/// Files are asked about in runs of so many.
const RUN: usize = 200;

fn every_call_agrees(files: &[Vec<u8>], seed: u64) {
    let mut random = Random::new(seed);
    for run in files.chunks(RUN) {
        let questions = run.iter().flat_map(|file| every_call(file, &mut random));
        agree(&questions.collect::<Vec<Question>>());
    }
}

#[test]
fn every_call_agrees_on_generated_files() {
    let files = random(61, 8_000).into_iter().map(|sample| sample.file);
    every_call_agrees(&files.collect::<Vec<_>>(), 61);
}

#[test]
fn every_call_agrees_on_files_with_a_mask() {
    let mixed = (0..3_000).map(|number| masked_sample(77, number).file);
    let named = common::masks::sorts().flat_map(common::masks::named).map(|case| case.file);
    every_call_agrees(&mixed.chain(named).collect::<Vec<_>>(), 77);
}

#[test]
fn every_call_agrees_on_files_of_real_producers() {
    let folder = concat!(env!("CARGO_MANIFEST_DIR"), "/field");
    let entries = std::fs::read_dir(folder).expect("the folder of these files");
    let paths = entries.map(|entry| entry.expect("an entry of the folder").path());
    let files: Vec<Vec<u8>> = paths.map(|path| std::fs::read(path).expect("a file")).collect();
    assert!(files.len() > 50, "{} files", files.len());
    every_call_agrees(&files, 75);
}

/// The question of a targeted case.
fn asked<'a>(case: &'a Case, random: &mut Random) -> Question<'a> {
    match &case.call {
        Call::Judge => Question::on(Symbol::Judge, &case.file),
        Call::Rows(lent) => rows(&case.file, *lent, random),
        Call::Citation(key) => citation(&case.file, *key),
        Call::Metadata(number) => metadata(&case.file, b"an outside text", *number),
        Call::Block(room) => block(&case.file, *room, random),
        Call::ReadBlock(runs) => read_block(runs),
    }
}

/// The targeted cases by their own calls; the second reader gives what they
/// must give by construction, and the library the same.
#[test]
fn the_targeted_cases_agree() {
    let mut random = Random::new(62);
    for run in targeted(62).chunks(RUN) {
        assert!(run.iter().all(|case| case.answer().0 == case.want));
        agree(&run.iter().map(|case| asked(case, &mut random)).collect::<Vec<_>>());
    }
}

#[test]
fn every_call_agrees_on_the_targeted_files() {
    let files: Vec<Vec<u8>> = targeted(63).into_iter().map(|case| case.file).collect();
    every_call_agrees(&files, 63);
}

/// Every number of rows up to a few above K, and every room up to a few bytes
/// above the block's.
fn every_size<'a>(file: &'a [u8], random: &mut Random) -> Vec<Question<'a>> {
    let (keys, bytes) = needs(file);
    let mut list = Vec::new();
    list.extend((0..keys + 4).chain([300, 1_000]).map(|lent| rows(file, lent, random)));
    list.extend((0..bytes + 10).chain([65_536]).map(|room| block(file, room, random)));
    list
}

#[test]
fn any_number_of_rows_and_any_room_agree() {
    let mut random = Random::new(64);
    for run in accepted(64, 150).chunks(50) {
        let questions = run.iter().flat_map(|file| every_size(file, &mut random));
        agree(&questions.collect::<Vec<_>>());
    }
}

/// The 45 known keys with their neighbours, and the same 16 bits under others.
fn key_numbers() -> Vec<u32> {
    let near = |key: u32| [key - 1, key, key + 1, 65_536 + key, (1 << 31) + key, key << 16];
    let mut numbers: Vec<u32> = KEYS.iter().flat_map(|row| near(u32::from(row.key))).collect();
    numbers.extend([0, 1, 32_767, 65_534, 65_535, 65_536, u32::MAX - 1, u32::MAX]);
    numbers
}

#[test]
fn citations_of_every_key_agree() {
    let (files, keys) = (accepted(65, 150), key_numbers());
    let of = |file| keys.iter().map(move |&key| citation(file, key));
    agree(&files.iter().flat_map(|file| of(file)).collect::<Vec<_>>());
    agree(&(0..65_536).map(|key| citation(&files[0], key)).collect::<Vec<_>>());
}

/// Every number there is in the place of the minor revision, and every call on
/// those near the two that are allowed.
#[test]
fn files_of_every_minor_revision_agree() {
    for order in [Order::Little, Order::Big] {
        let keys = keys().encode();
        let of = |minor: u16| plan_like_a(order, &keys.clone().of_minor(minor)).lay().bytes;
        let files: Vec<Vec<u8>> = (0..=65_535).map(of).collect();
        agree(&files.iter().map(|file| Question::on(Symbol::Judge, file)).collect::<Vec<_>>());
        every_call_agrees(&[0, 1, 2, 3, 255, 256, 257, 512, 65_535].map(of), 76);
    }
}

#[test]
fn outside_texts_of_any_length_agree() {
    let mut files = accepted(67, 30);
    files.extend([FILE_A.to_vec(), FILE_A[..269].to_vec(), Vec::new()]);
    for length in [0, 1, 4, 5, 255, 70_000, 1_000_000] {
        let text = Random::new(67).bytes(length);
        let asked =
            files.iter().flat_map(|file| [0, 1].map(|number| metadata(file, &text, number)));
        agree(&asked.collect::<Vec<_>>());
    }
    // a text that is the file itself is still the outside text
    agree(&files.iter().map(|file| metadata(file, file, 0)).collect::<Vec<_>>());
}

/// Files with more than one metadata tag, of every verdict that they can have.
fn mosaics(seed: u64, count: usize) -> Vec<Vec<u8>> {
    let files = (0..).filter(|number| number % 8 > 5).map(|number| sample(seed, number).file);
    files.take(count).collect()
}

/// Every text of a file by its number, and every number up to some behind the
/// last; of a file of very many the first and the last ones.
#[test]
fn texts_of_every_number_agree() {
    let files = mosaics(66, 1_200);
    let asked = |file: &Vec<u8>| {
        let all = texts(file) as u32;
        (0..40).chain(all.saturating_sub(3)..all + 4).chain(numbers(file)).collect::<Vec<u32>>()
    };
    assert!(files.iter().any(|file| texts(file) > 1_000), "a file of very many texts");
    for run in files.chunks(RUN) {
        let of = |file| asked(file).into_iter().map(move |k| metadata(file, b"outside", k));
        agree(&run.iter().flat_map(of).collect::<Vec<_>>());
    }
    // the same low bits under others
    let far = (0..16).map(|at| 1 + (1u32 << (16 + at)));
    agree(&far.map(|number| metadata(&files[0], b"outside", number)).collect::<Vec<_>>());
}

/// Files of every verdict, of 28 for every rule of a mask, at most `most` of each,
/// and as many mosaics.
fn of_every_verdict(most: usize) -> Vec<Vec<u8>> {
    let mut seen: BTreeMap<(u32, bool, u32), usize> = BTreeMap::new();
    let mixed = (0..6_000).map(|number| sample(73, number).file);
    let mut files: Vec<Vec<u8>> = mixed.chain(targeted_files(73)).collect();
    files.retain(|file| {
        let several = tags(file).iter().filter(|tag| **tag == 50909).count() > 1;
        let Verdict { number, place } = judge(file).verdict;
        let of_mask = if number == 28 { place } else { 0 };
        let count = seen.entry((number, several, of_mask)).or_insert(0);
        *count += 1;
        *count <= most
    });
    for several in [false, true] {
        let mut with: Vec<u32> =
            seen.keys().filter(|kind| kind.1 == several).map(|kind| kind.0).collect();
        with.dedup();
        // without a whole directory no tag is there
        let whole = |number: &u32| !several || *number == 0 || *number > 5;
        let all = judgements().filter(whole);
        assert!(with.into_iter().filter(whole).eq(all), "{seen:?}");
    }
    let places = seen.keys().filter(|kind| kind.0 == 28 && !kind.1).map(|kind| kind.2);
    assert!(places.eq((4..=14).chain([27])), "{seen:?}");
    files
}

/// Both lists of questions get the same numbers and the same memory back.
fn same_answers(before: &[Question], after: &[Question]) {
    let replies = ask(before).into_iter().zip(ask(after));
    for (asked, (was, is)) in before.iter().zip(replies) {
        let lent = asked.memory.len();
        assert_eq!(was.numbers, is.numbers, "{asked:02X?}");
        assert_eq!(was.bytes[..lent], is.bytes[..lent], "{asked:02X?}");
    }
}

/// Demand 3: every byte that is not on the reading list is drawn anew, and
/// the whole answer of every call stays, for the same key and the same number of
/// a text in both files.
#[test]
fn repainting_what_is_not_on_the_reading_list_changes_nothing() {
    let mut random = Random::new(74);
    let files = of_every_verdict(60);
    let painted: Vec<Vec<u8>> = files.iter().map(|file| repainted(file, &mut random)).collect();
    let changed = files.iter().zip(&painted).filter(|(file, other)| file != other).count();
    assert!(changed > 500, "{changed} files changed");
    for (files, painted) in files.chunks(RUN).zip(painted.chunks(RUN)) {
        let (mut before, mut after) = (Vec::new(), Vec::new());
        for (file, other) in files.iter().zip(painted) {
            let mut list = every_call(file, &mut random);
            let all = 0..texts(file).min(40) as u32;
            list.extend(all.map(|number| metadata(file, b"an outside text", number)));
            after.extend(list.iter().map(|asked| Question {
                runs: [other, asked.runs[1], asked.runs[2]],
                ..asked.clone()
            }));
            before.extend(list);
        }
        agree(&before);
        same_answers(&before, &after);
    }
}
