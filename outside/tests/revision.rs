//! Request C-13, files of the newer key revision: what it changes and what it
//! leaves, and each reading of its words by a file of its own.

mod common;

use common::kept::{files, keep};
use common::*;
use outside::generator::keyplan::{Encoded, Held};
use outside::generator::plan::Plan;
use outside::generator::{plain_sample, random, targeted, Call, Sample};
use outside::reader::tables::{Rules, C_12, C_13};
use outside::reader::{
    citation, judge, judge_by, judgements, judgements_by, key_block, key_block_by, key_rows,
    leads_on, metadata, read_block, read_block_by, reading_list, reading_list_by, Block, Cited,
    Georeference, Judged, Order, ReadBack, Text,
};
use std::collections::BTreeSet;

const ORDERS: [Order; 2] = [Order::Little, Order::Big];

/// The answer of the key block's call, and all that is lent.
fn block_by(file: &[u8], rules: Rules) -> (Block, Vec<u8>) {
    let mut out = vec![0xEE; 3_000];
    (key_block_by(file, &mut out, rules), out)
}

#[test]
fn a_file_that_is_not_of_minor_revision_1_keeps_its_answers_its_list_and_its_block() {
    let kept = files(101).filter(|file| minor(file) != Some(1)).inspect(|file| {
        assert_eq!(judge_by(file, C_13).minor, 0, "{file:02X?}");
        let blocks = [C_12, C_13].map(|rules| block_by(file, rules));
        assert_eq!(blocks[0], blocks[1], "{file:02X?}");
    });
    let (compared, numbers) = keep(kept, C_12, C_13);
    assert_eq!(numbers, judgements_by(C_13).collect::<BTreeSet<u32>>());
    assert!(compared > 20_000, "{compared} files");
}

/// The list is the full one both with 15 and with what comes in its place.
#[test]
fn only_a_file_that_was_refused_by_rule_15_is_judged_anew() {
    let (mut anew, mut numbers) = (0, BTreeSet::new());
    for file in files(101) {
        let (was, is) = (judge_by(&file, C_12).verdict, judge_by(&file, C_13).verdict);
        let lists = [C_12, C_13].map(|rules| reading_list_by(&file, rules));
        assert_eq!(lists[0], lists[1], "{file:02X?}");
        if was != is {
            assert_eq!((was, minor(&file)), (verdict(15, 0), Some(1)), "{file:02X?}");
            numbers.insert(is.number);
            anew += 1;
        }
    }
    assert_eq!(numbers, [0].into_iter().chain(16..=22).collect::<BTreeSet<u32>>());
    assert!(anew > 5_000, "{anew} files");
}

/// The file with this minor revision in its place.
fn revised(file: &[u8], minor: u8) -> Vec<u8> {
    let mut file = file.to_vec();
    let number = if file[0] == b'I' { [minor, 0] } else { [0, minor] };
    let at = minor_at(&file).expect("a key directory");
    file[at..at + 2].copy_from_slice(&number);
    file
}

/// How many values of keys have the one byte of the file that differs.
fn holding(file: &[u8], other: &[u8]) -> usize {
    let byte = (0..file.len()).find(|&at| file[at] != other[at]).expect("another file") as u32;
    rows(file).iter().filter(|row| (row.first..row.first + row.length).contains(&byte)).count()
}

#[test]
fn a_file_of_minor_revision_1_is_answered_as_the_same_file_of_0_was() {
    let mut held = 0;
    let alone = |sample: &Sample| !sample.damaged && !leads_on(&sample.file);
    for sample in random(103, 8_000).into_iter().filter(alone) {
        let [zero, one] = [0, 1].map(|minor| revised(&sample.file, minor));
        let was = judge_by(&zero, C_12);
        assert_eq!((was.verdict, was.minor), (verdict(0, 0), 0));
        assert_eq!(judge(&one), Judged { minor: 1, ..was });
        assert_eq!(reading_list(&one), reading_list(&zero));
        assert_eq!(rows(&one), rows(&zero));
        for key in [0, 1026, 2049, 3073, 4097] {
            assert_eq!(citation(&one, key), citation(&zero, key));
        }
        for number in [0, 1, u32::MAX] {
            assert_eq!(metadata(&one, b"outside", number), metadata(&zero, b"outside", number));
        }
        let [(was, before), (is, after)] = [&zero, &one].map(|file| block_by(file, C_13));
        assert_eq!(is, was);
        if is.verdict == verdict(0, 0) {
            // in the header, and once in every value that lies over it
            let differ: Vec<usize> = (0..3_000).filter(|&at| before[at] != after[at]).collect();
            assert_eq!((differ[0], before[4], after[4]), (4, 0, 1));
            assert_eq!(differ.len(), 1 + holding(&zero, &one));
            held += holding(&zero, &one);
        }
    }
    assert!(held > 20, "{held} values");
}

/// Files like file A with these keys, in strips and in tiles, of both orders.
fn plans(keys: &Encoded) -> Vec<Plan> {
    let both = |order| {
        let plan = plan_like_a(order, keys);
        [plan.clone(), tiled(plan)]
    };
    ORDERS.into_iter().flat_map(both).collect()
}

/// The numbers of the first run of a file's key block, and what it reads back.
fn written(file: &[u8]) -> (Vec<u16>, ReadBack) {
    let (block, out) = block_by(file, C_13);
    assert_eq!(block.verdict, verdict(0, 0));
    let [a, b, c] = block.lengths;
    assert!(out[a + b + c..].iter().all(|byte| *byte == 0xEE));
    let back = read_block(&out[..a], &out[a..a + b], &out[a + b..a + b + c]);
    let numbers = out[..a].chunks(2).map(|pair| u16::from_le_bytes([pair[0], pair[1]]));
    (numbers.collect(), back)
}

#[test]
fn file_a_of_minor_revision_1_is_file_a_but_for_that_number() {
    let one = changed(KEYS + 4, &[1, 0]);
    assert_eq!(judge(&one), Judged { minor: 1, ..judge(&FILE_A) });
    assert_eq!(judge_by(&one, C_12).verdict, verdict(15, 0));
    assert_eq!(rows(&one), rows(&FILE_A));
    for (file, minor) in [(&FILE_A[..], 0), (&one, 1)] {
        let (numbers, back) = written(file);
        let entries = [1024, 0, 1, 1, 1025, 0, 1, 1, 3072, 0, 1, 32633];
        assert_eq!(numbers, [&[1, 1, minor, 3][..], &entries].concat());
        assert_eq!(back, ReadBack { verdict: verdict(0, 0), keys: 3, minor: minor.into() });
    }
}

#[test]
fn the_number_read_is_the_number_written_and_read_back() {
    let many = keys()
        .with(1026, Held::Text(b"a name|".to_vec()))
        .with(2057, Held::Doubles(vec![6_378_137.0f64.to_bits()]))
        .with(60_001, Held::Array(vec![7, 8, 9]));
    for (keys, k) in [(keys(), 3), (many, 6)] {
        for minor in [0, 1] {
            for plan in plans(&keys.encode().of_minor(minor)) {
                let file = plan.lay().bytes;
                let judged = judge(&file);
                let answer = (judged.verdict, judged.keys, judged.minor);
                assert_eq!(answer, (verdict(0, 0), k, minor.into()));
                let (numbers, back) = written(&file);
                assert_eq!(numbers[..4], [1, 1, minor, k as u16]);
                assert_eq!((back.keys, back.minor), (k, minor.into()));
            }
        }
    }
}

/// The answer on a refused file: nothing beside verdict and place.
fn refused(number: u32, place: u32) -> Judged {
    Judged {
        verdict: verdict(number, place),
        keys: 0,
        minor: 0,
        georeference: Georeference::Scaled([0.0; 6]),
        corners: [0.0; 4],
    }
}

/// Every number there is, 2, 256 and 65535 among them.
#[test]
fn every_other_number_is_refused_by_rule_15() {
    for order in ORDERS {
        let mut laid = plan_like_a(order, &keys().encode()).lay();
        let third = laid.spot(34735).value + 4;
        for number in 0..=65_535 {
            laid.put_short(third, number);
            let judged = judge(&laid.bytes);
            if number > 1 {
                assert_eq!(judged, refused(15, 0), "{number}");
            } else {
                assert_eq!((judged.verdict, judged.minor), (verdict(0, 0), number.into()));
            }
        }
    }
}

#[test]
fn the_other_numbers_of_the_header_stay_what_they_were() {
    let wrong = [
        [1, 0, 1, 3],
        [2, 1, 1, 3],
        [0, 1, 1, 3],
        [1, 2, 1, 3],
        [256, 1, 1, 3],
        [1, 256, 1, 3],
        [0, 0, 1, 3],
        [1, 0, 0, 3],
        [0, 1, 0, 3],
        [1, 1, 1, 4],
        [1, 1, 1, 257],
        [1, 1, 1, 65_535],
        [1, 1, 2, 0],
    ];
    let right = keys().encode();
    for header in wrong {
        let mut keys = right.clone();
        keys.directory[..4].copy_from_slice(&header);
        for plan in plans(&keys) {
            assert_eq!(judge(&plan.lay().bytes), refused(15, 0), "{header:?}");
        }
        let [directory, doubles, characters] = keys.runs();
        let back = read_block(&directory, &doubles, &characters);
        assert_eq!(back, ReadBack { verdict: verdict(15, 0), keys: 0, minor: 0 }, "{header:?}");
    }
}

/// The index counts from the header's first number: 2 is the minor revision.
#[test]
fn an_array_may_have_the_minor_revision_as_a_value() {
    for (count, index) in [(1, 2), (2, 1), (4, 0), (6, 2)] {
        for minor in [0, 1] {
            let own = keys().with(60_001, Held::Raw(34735, count, index));
            let keys = own.encode().of_minor(minor);
            for laid in plans(&keys).iter().map(Plan::lay) {
                let start = laid.spot(34735).value as u32;
                let first = start + 2 * u32::from(index);
                let expected = [60_001, 3, first, 2 * u32::from(count), start + 32];
                assert_eq!(rows(&laid.bytes)[3].numbers(), expected);
                let (numbers, back) = written(&laid.bytes);
                assert_eq!(numbers[..4], [1, 1, minor, 4]);
                assert_eq!(numbers[16..20], [60_001, 34_735, count, 20]);
                let value = usize::from(index)..usize::from(index + count);
                assert_eq!(numbers[20..], keys.directory[value]);
                assert_eq!((back.keys, back.minor), (4, minor.into()));
            }
        }
    }
}

/// Of every rule there is a refused file whose header says 1, where it has a
/// whole directory.
#[test]
fn a_refused_file_has_no_minor_revision() {
    let (mut numbers, mut of_one) = (BTreeSet::new(), BTreeSet::new());
    for case in targeted(104) {
        let judged = judge(&case.file);
        let number = judged.verdict.number;
        if number != 0 {
            assert_eq!(judged, refused(number, judged.verdict.place));
            numbers.insert(number);
            of_one.extend((minor(&case.file) == Some(1)).then_some(number));
        }
    }
    let all: BTreeSet<u32> = judgements().filter(|number| *number != 0).collect();
    assert_eq!(numbers, all);
    let whole: BTreeSet<u32> = all.into_iter().filter(|number| *number > 5).collect();
    assert!(whole.is_subset(&of_one), "{of_one:?}");
}

/// Rules 23 to 26 and 29 on accepted files of minor revision 1.
#[test]
fn a_refused_call_gives_nothing_of_minor_revision_1() {
    let mut numbers = BTreeSet::new();
    for case in targeted(105) {
        let (file, want) = (&case.file, case.want);
        let later = want.number > 22 && want.number != 27 && want.number != 28;
        if !later || minor(file) != Some(1) {
            continue;
        }
        assert_eq!((judge(file).verdict, judge(file).minor), (verdict(0, 0), 1));
        match case.call {
            Call::Rows(lent) => {
                let mut rows = vec![UNTOUCHED; lent];
                assert_eq!(key_rows(file, &mut rows), (want, 0));
                assert!(rows.iter().all(|row| *row == UNTOUCHED));
            }
            Call::Block(room) => {
                let mut out = vec![0xEE; room];
                assert_eq!(key_block(file, &mut out), Block { verdict: want, lengths: [0; 3] });
                assert!(out.iter().all(|byte| *byte == 0xEE));
            }
            Call::Citation(key) => {
                assert_eq!(citation(file, key), Cited { verdict: want, start: 0, length: 0 });
            }
            Call::Metadata(number) => {
                let nothing = Text { verdict: want, from: 0, start: 0, length: 0 };
                assert_eq!(metadata(file, b"outside", number), nothing);
            }
            Call::Judge | Call::ReadBlock(_) => panic!("{want:?} by {:?}", case.call),
        }
        numbers.insert(want.number);
    }
    assert_eq!(numbers, BTreeSet::from([23, 24, 25, 26, 29]));
}

#[test]
fn the_block_reader_says_the_minor_revision() {
    let encoded = keys().with(60_003, Held::Text(b"free".to_vec())).encode();
    for minor in 0..=65_535 {
        let [directory, doubles, characters] = encoded.clone().of_minor(minor).runs();
        let runs: [&[u8]; 3] = [&directory, &doubles, &characters];
        let refused = ReadBack { verdict: verdict(15, 0), keys: 0, minor: 0 };
        let read = ReadBack { verdict: verdict(0, 0), keys: 4, minor: minor.into() };
        assert_eq!(read_block_by(runs, C_13), if minor < 2 { read } else { refused });
        assert_eq!(read_block_by(runs, C_12), if minor < 1 { read } else { refused });
    }
}

#[test]
fn a_block_that_is_not_of_minor_revision_1_keeps_its_answer() {
    let mut seen = [0, 0];
    for case in targeted(106) {
        let Call::ReadBlock(runs) = &case.call else { continue };
        let runs = runs.each_ref().map(Vec::as_slice);
        let (was, is) = (read_block_by(runs, C_12), read_block_by(runs, C_13));
        let of_one = runs[0].get(4..6) == Some(&[1, 0]);
        if of_one {
            assert_eq!(was, ReadBack { verdict: verdict(15, 0), keys: 0, minor: 0 });
        } else {
            assert_eq!(was, is);
        }
        seen[usize::from(of_one)] += 1;
    }
    assert!(seen.iter().all(|blocks| *blocks > 500), "{seen:?}");
}

#[test]
fn files_of_real_producers_are_of_either() {
    let (mut of_minor, mut anew) = ([0, 0], BTreeSet::new());
    for file in field() {
        let (was, is) = (judge_by(&file, C_12), judge_by(&file, C_13));
        if was != is {
            assert_eq!((was.verdict, minor(&file)), (verdict(15, 0), Some(1)));
            anew.insert((is.verdict.number, is.verdict.place));
        }
        if is.verdict == verdict(0, 0) {
            assert_eq!(Some(is.minor as usize), minor(&file));
            of_minor[is.minor as usize] += 1;
        }
    }
    assert_eq!(of_minor, [34, 9]);
    assert_eq!(anew, BTreeSet::from([(0, 0), (19, 4096)]));
}

#[test]
fn half_of_the_mix_is_of_minor_revision_1_in_either_order() {
    let mut found = [[0, 0], [0, 0]];
    for sample in random(107, 8_000).into_iter().filter(|sample| !sample.damaged) {
        let minor = judge(&sample.file).minor as usize;
        found[usize::from(sample.file[0] == b'M')][minor] += 1;
    }
    assert!(found.iter().flatten().all(|files| *files > 900), "{found:?}");
    let plain = (0..2_000).map(|number| judge(&plain_sample(108, 2 * number).file));
    assert!(plain.into_iter().all(|judged| (judged.verdict, judged.minor) == (verdict(0, 0), 0)));
}
