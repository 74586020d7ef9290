//! Request C-14, transparency masks: what it changes and what it leaves, and each
//! reading of its words by a file of its own.

mod common;

use common::kept::{files, keep};
use common::masks::{base, named, sorts};
use common::*;
use outside::compiled::fast;
use outside::generator::large::many_masked;
use outside::generator::plan::{Laid, Part, Sheet, Tag};
use outside::generator::{masked_sample, sample};
use outside::reader::tables::{Family, C_13, C_14, TAGS};
use outside::reader::{
    citation, judge, judge_by, judgements, judgements_by, key_block, key_rows, leads_on, metadata,
    reading_list, word_runs, Block, Cited, Georeference, Judged, Order, Text,
};
use std::collections::BTreeSet;
use std::ops::Range;

#[test]
fn a_file_without_a_next_offset_keeps_its_answers_and_its_list() {
    let kept = files(111).filter(|file| !leads_on(file));
    let (compared, numbers) = keep(kept, C_13, C_14);
    let all = judgements_by(C_13).filter(|number| *number != 8);
    assert_eq!(numbers, all.collect::<BTreeSet<u32>>());
    assert!(compared > 20_000, "{compared} files");
}

/// Every file with a next offset that gets so far was refused by rule 8, and is
/// now what it is without: with 0 in its place, or with a mask's 28.
#[test]
fn a_file_with_a_next_offset_was_refused_by_rule_8() {
    let (mut anew, mut numbers) = (0, BTreeSet::new());
    for file in files(111).filter(|file| leads_on(file)) {
        let (was, is) = (judge_by(&file, C_13).verdict, judge_by(&file, C_14).verdict);
        if was.number < 8 {
            assert_eq!(is, was, "{file:02X?}");
            continue;
        }
        assert_eq!(was, verdict(8, 0), "{file:02X?}");
        let alone = judge_by(&without_next(&file), C_13);
        if alone.verdict.number != 0 {
            assert_eq!(is, alone.verdict, "{file:02X?}");
        } else if is.number == 0 {
            assert_eq!(judge_by(&file, C_14), alone, "{file:02X?}");
        } else {
            assert_eq!(is.number, 28, "{file:02X?}");
        }
        numbers.insert(is.number);
        anew += 1;
    }
    let all = judgements().filter(|number| *number == 0 || *number > 8);
    assert_eq!(numbers, all.collect::<BTreeSet<u32>>());
    assert!(anew > 10_000, "{anew} files");
}

/// The file with 0 for the image's next offset, written apart from the reader.
fn without_next(file: &[u8]) -> Vec<u8> {
    let number = |at: usize, width: usize| held::number(file[0] == b'I', file, at, width) as usize;
    let next = number(4, 4) + 2 + 12 * number(number(4, 4), 2);
    let mut file = file.to_vec();
    file[next..next + 4].fill(0);
    file
}

#[test]
fn named_files_get_what_they_must() {
    let (mut faults, mut told) = (Vec::new(), 0);
    for sort in sorts() {
        for case in named(sort) {
            let verdict = judge(&case.file).verdict;
            let (got, quick) = ((verdict.number, verdict.place), fast(&case.file));
            let quick = (quick.verdict, quick.place);
            if got != case.want || quick != case.want {
                faults.push(format!(
                    "{sort:?} {}: want {:?}, got {got:?}, the fast judge {quick:?}",
                    case.why, case.want
                ));
            }
            told += 1;
        }
    }
    assert!(faults.is_empty(), "{}", faults.join("\n"));
    assert!(told > 2_000, "{told} files");
}

/// Of 28 there is nothing beside verdict and place.
#[test]
fn a_file_with_a_broken_mask_gives_nothing_else() {
    let mut places = BTreeSet::new();
    for case in sorts().flat_map(named).filter(|case| case.want.0 == 28) {
        let want = verdict(28, case.want.1);
        let nothing = Judged {
            verdict: want,
            keys: 0,
            minor: 0,
            georeference: Georeference::Scaled([0.0; 6]),
            corners: [0.0; 4],
        };
        assert_eq!(judge(&case.file), nothing);
        for lent in [0, 2, 3, 9] {
            let mut rows = vec![UNTOUCHED; lent];
            assert_eq!(key_rows(&case.file, &mut rows), (want, 0), "28 comes before 23");
            assert!(rows.iter().all(|row| *row == UNTOUCHED));
            let mut out = vec![0xEE; 20 * lent];
            assert_eq!(key_block(&case.file, &mut out), Block { verdict: want, lengths: [0; 3] });
            assert!(out.iter().all(|byte| *byte == 0xEE), "28 comes before 25");
        }
        for key in [0, 1024, 1026, 65_536] {
            let nothing = Cited { verdict: want, start: 0, length: 0 };
            assert_eq!(citation(&case.file, key), nothing, "28 comes before 26");
        }
        for number in [0, 1, u32::MAX] {
            let nothing = Text { verdict: want, from: 0, start: 0, length: 0 };
            assert_eq!(metadata(&case.file, b"outside", number), nothing, "28 comes before 29");
        }
        places.insert(case.want.1);
    }
    assert_eq!(places, (4..=14).chain([27]).collect::<BTreeSet<u32>>());
}

/// A kept mask changes no answer: all are those of the image alone.
#[test]
fn a_file_with_a_kept_mask_is_answered_as_its_image() {
    let mut seen = 0;
    for number in (0..3_000).map(|number| 2 * number) {
        let file = masked_sample(113, number).file;
        let alone = without_next(&file);
        assert_eq!(judge(&file), judge(&alone));
        let rows = |file: &[u8]| {
            let mut rows = vec![UNTOUCHED; 256];
            (key_rows(file, &mut rows), rows)
        };
        assert_eq!(rows(&file), rows(&alone));
        for key in [0, 1026, 2049, 3073, 4097] {
            assert_eq!(citation(&file, key), citation(&alone, key));
        }
        for text in [0, 1, 2, u32::MAX] {
            assert_eq!(metadata(&file, b"outside", text), metadata(&alone, b"outside", text));
        }
        seen += usize::from(leads_on(&file));
    }
    assert_eq!(seen, 3_000, "all of them have a mask");
}

fn part(start: usize, size: usize) -> Range<u64> {
    start as u64..(start + size) as u64
}

/// By hand, the parts that a sheet has on the list at each stage: the count bytes,
/// the directory, the values of these tags.
fn stages(sheet: &Sheet, tags: &[u16]) -> [Vec<Range<u64>>; 3] {
    let listed = sheet.spots.iter().filter(|spot| tags.contains(&spot.tag));
    [
        vec![part(sheet.directory, 2)],
        vec![part(sheet.directory, 2 + 12 * sheet.spots.len() + 4)],
        listed.map(|spot| part(spot.value, spot.size)).collect(),
    ]
}

/// The bytes of a list.
fn joined(list: impl IntoIterator<Item = Range<u64>>) -> BTreeSet<u64> {
    list.into_iter().flatten().collect()
}

/// The list holds as much of the mask as document 01's stages give, and of the
/// image all.
#[test]
fn the_list_holds_the_image_and_of_the_mask_what_its_stage_gives() {
    type Change = fn(&mut Laid);
    let changes: [(u32, usize, Change); 13] = [
        (0, 3, |_| ()),
        (4, 0, |laid| laid.put_long(laid.pointer(), laid.directory as u32 + 1)),
        (5, 1, |laid| laid.put_short(laid.directory, 0)),
        (6, 2, |laid| laid.put_short(laid.spots[1].entry, 254)),
        (7, 2, |laid| laid.put_long(laid.spots[2].entry + 4, 0)),
        (8, 3, |laid| laid.put_long(laid.next(), 8)),
        (27, 3, |laid| {
            laid.put_short(laid.spot(277).entry, if laid.tiled() { 278 } else { 277 });
            laid.put_short(laid.spot(34735).entry, if laid.tiled() { 34735 } else { 325 });
        }),
        (9, 3, |laid| laid.put_short(laid.spot(254).entry, 253)),
        (10, 3, |laid| laid.put_short(laid.spot(254).entry + 2, 3)),
        (11, 3, |laid| laid.put_long(laid.spot(254).entry + 8, 5)),
        (12, 3, |laid| {
            let (tag, number) = if laid.tiled() { (322, 32) } else { (278, 1) };
            laid.put_short(laid.spot(tag).value, number);
        }),
        (13, 3, |laid| laid.put_long(laid.places().1.value, 0)),
        (14, 3, |laid| laid.put_long(laid.places().0.value, laid.directory as u32)),
    ];
    let image_tags: Vec<u16> = TAGS.iter().map(|row| row.tag).collect();
    let mask_tags: Vec<u16> = [254].into_iter().chain(256..=325).collect();
    for sort in sorts() {
        let mut plan = base(sort);
        // values of tags outside the mask's table are never listed
        plan.set(Tag::bytes(34735, 7, b"no keys at all"));
        plan.set(Tag::bytes(50909, 1, b"a text of the mask"));
        for (rule, stage, change) in changes {
            let mut laid = plan.lay();
            change(&mut laid);
            let want = if rule == 0 { verdict(0, 0) } else { verdict(28, rule) };
            assert_eq!(judge(&laid.bytes).verdict, want, "{sort:?}");
            let mut sheet = laid.sheet.clone();
            // what is renamed has its value on the list by its new tag
            sheet.spots.iter_mut().for_each(|spot| {
                let number = held::number(sort.0 == Order::Little, &laid.bytes, spot.entry, 2);
                spot.tag = number as u16;
            });
            let image = stages(&laid.its_image(), &image_tags);
            let of_mask = stages(&sheet, &mask_tags);
            let parts = [part(0, 8)].into_iter().chain(image.into_iter().flatten());
            let parts = parts.chain(of_mask.into_iter().take(stage).flatten());
            assert_eq!(joined(reading_list(&laid.bytes)), joined(parts), "{sort:?} {rule}");
        }
    }
}

/// With 1 to 22 or 27 the list holds nothing of a mask: it is that of the file
/// without a next offset.
#[test]
fn a_refused_image_has_nothing_of_its_mask_on_the_list() {
    let mut numbers = BTreeSet::new();
    for file in files(111).filter(|file| leads_on(file)) {
        let number = judge(&file).verdict.number;
        if number != 0 && number != 28 {
            assert_eq!(reading_list(&file), reading_list(&without_next(&file)), "{file:02X?}");
            numbers.insert(number);
        }
    }
    let all = judgements().filter(|number| *number > 5 && *number != 28);
    assert_eq!(numbers, all.collect::<BTreeSet<u32>>());
}

/// The list of an accepted file is that of the image alone, and then the mask's.
#[test]
fn the_list_of_both_begins_with_the_images() {
    for number in (0..2_000).map(|number| 2 * number) {
        let file = masked_sample(114, number).file;
        let (both, alone) = (reading_list(&file), reading_list(&without_next(&file)));
        assert_eq!(both[..alone.len()], alone[..]);
        assert!(both.len() > alone.len() + 10, "directory and values of the mask");
    }
}

/// Document 01's file A, with a mask put behind it by its bytes.
#[test]
fn file_a_with_a_mask() {
    let entries: [(u16, u16, u32); 10] = [
        (254, 4, 4),
        (256, 3, 4),
        (257, 3, 2),
        (258, 3, 1),
        (259, 3, 1),
        (262, 3, 4),
        (273, 3, 396),
        (277, 3, 1),
        (278, 3, 2),
        (279, 3, 2),
    ];
    let mut file = changed(NEXT_OFFSET, &[0x0E, 0x01, 0, 0]);
    file.extend(10u16.to_le_bytes());
    for (tag, kind, number) in entries {
        file.extend(tag.to_le_bytes());
        file.extend(kind.to_le_bytes());
        file.extend(1u32.to_le_bytes());
        file.extend(number.to_le_bytes());
    }
    file.extend([0; 4]);
    assert_eq!(file.len(), 396);
    assert_eq!(judge(&file).verdict, verdict(28, 13), "the strip of the mask is cut off");
    file.extend([0xF0, 0x90]);
    assert_eq!(judge(&file), judge(&FILE_A));
    let list = joined(reading_list(&file));
    assert_eq!(list, (0..262).chain(270..396).collect());
    // the image's strip is moved on: up to the mask, then onto its first byte
    let moved = |at: u16| {
        let mut file = file.clone();
        file[OFFSET_OF_STRIP..OFFSET_OF_STRIP + 2].copy_from_slice(&at.to_le_bytes());
        judge(&file).verdict
    };
    assert_eq!(moved(262), verdict(0, 0));
    assert_eq!(moved(263), verdict(28, 14));
    assert_eq!(moved(388), verdict(28, 14));
    assert_eq!(moved(261), verdict(14, 0), "its own list comes first");
    assert_eq!(judge(&changed(NEXT_OFFSET, &[8, 0, 0, 0])).verdict, verdict(28, 8));
}

/// The mask's directory may begin inside the image's: its count is then half of the
/// next offset that leads to it.
#[test]
fn two_directories_may_share_bytes() {
    for (order, image, mask) in sorts() {
        let mut plan = base((order, image, mask));
        plan.image.as_mut().expect("an image").remove(50909);
        (plan.first, plan.gap) = (vec![Part::ImageDirectory, Part::Directory], (0, 0));
        let next = plan.lay().pointer();
        // the half of a small number that is not 0, and the tag 0 for the other
        let at = if order == Order::Little { next } else { next + 2 };
        plan.set(Tag::raw(0, 13, 0, [0; 4]));
        let more = at - plan.tags.len();
        (0..more).for_each(|n| plan.set(Tag::raw(40_000 + n as u16, 13, 0, [0; 4])));
        let mut laid = plan.lay();
        assert_eq!((laid.directory, laid.pointer()), (next + 4, next));
        laid.bytes.copy_within(next + 6..next + 6 + 12 * at + 4, at + 2);
        laid.put_long(next, at as u32);
        assert_eq!(judge(&laid.bytes).verdict, verdict(0, 0), "{order:?}");
        assert_eq!(fast(&laid.bytes).verdict, 0);
        let (both, alone) = (reading_list(&laid.bytes), reading_list(&without_next(&laid.bytes)));
        assert_eq!(both[alone.len()..][..2], [part(at, 2), part(at, 2 + 12 * at + 4)]);
    }
}

#[test]
fn masks_behind_many_strips_and_among_them() {
    for order in [Order::Little, Order::Big] {
        for (masks, among) in [(1, false), (1, true), (3_000, false), (3_000, true)] {
            let file = many_masked(order, 3_000, 2, masks, among);
            assert_eq!(judge(&file).verdict, verdict(0, 0));
            assert!(leads_on(&file));
            // one strip of a mask has its words in the entries
            let most: Vec<u64> = word_runs(&file).iter().map(|run| run.most).collect();
            let image = if among { 2 } else { 1 };
            assert_eq!(most, [image, image, 2, 2][..if masks == 1 { 2 } else { 4 }]);
            // a byte is free behind a mask that began even
            let cut = judge(&file[..file.len() - 2]).verdict;
            assert_eq!(cut, if among { verdict(13, 2_999) } else { verdict(28, 13) });
        }
    }
}

/// One strip, one tile: the smallest masks, behind either sort of image.
#[test]
fn masks_in_one_piece() {
    for order in [Order::Little, Order::Big] {
        for family in [Family::Strips, Family::Tiles] {
            let image = plan_like_a(order, &keys().encode());
            for image in [image.clone(), tiled(image)] {
                let file = mask_of(image, family).lay().bytes;
                assert_eq!(judge(&file).verdict, verdict(0, 0));
            }
        }
    }
}

/// A quarter of the mix has a mask, and files of every rule of it are in the mix.
#[test]
fn the_mix_has_masks_of_every_sort() {
    let (mut places, mut kept) = (BTreeSet::new(), 0);
    for number in 0..40_000 {
        let file = sample(115, number).file;
        let got = judge(&file).verdict;
        kept += usize::from(got.number == 0 && leads_on(&file));
        places.extend((got.number == 28).then_some(got.place));
    }
    assert_eq!(places, (4..=14).chain([27]).collect::<BTreeSet<u32>>());
    assert!(kept > 5_000, "{kept} accepted files with a mask");
}
