//! The errors that tempt, one by one, and further readings of the words.

mod common;

use common::*;
use outside::generator::keyplan::{Held, Keys};
use outside::generator::plan::{Plan, Tag};
use outside::reader::tables::{Family, C_13};
use outside::reader::{
    citation, judge, judge_by, judge_clause, key_block, key_rows, metadata, read_block,
    reading_list, reading_list_by, Georeference, Order, ReadBack,
};

const ORDERS: [Order; 2] = [Order::Little, Order::Big];

/// A plan like file A, with these keys.
fn plan(order: Order, keys: &Keys) -> Plan {
    plan_like_a(order, &keys.encode())
}

/// Plans like file A, in strips and in tiles, of both byte orders.
fn plans() -> Vec<(Family, Plan)> {
    let both = |order| {
        let plan = plan(order, &keys());
        [(Family::Strips, plan.clone()), (Family::Tiles, tiled(plan))]
    };
    ORDERS.into_iter().flat_map(both).collect()
}

#[test]
fn a_key_index_counts_elements() {
    for order in ORDERS {
        let keys = keys()
            .with(1026, Held::Text(b"first|".to_vec()))
            .with(2057, Held::Doubles(vec![1.0f64.to_bits()]))
            .with(3080, Held::Doubles(vec![2.0f64.to_bits()]))
            .with(3090, Held::Doubles(vec![3.0f64.to_bits()]))
            .with(4097, Held::Text(b"second|".to_vec()))
            .with(60001, Held::Array(vec![5, 6, 7]));
        let laid = plan(order, &keys).lay();
        let mut lent = [UNTOUCHED; 9];
        assert_eq!(key_rows(&laid.bytes, &mut lent), (verdict(0, 0), 9));
        let start = |tag: u16| laid.spot(tag).value as u32;
        let entry = |position: u32| start(34735) + 8 + 8 * position;
        let expected = [
            [1024, 0, start(34735) + 14, 2, entry(0)],
            [1025, 0, start(34735) + 22, 2, entry(1)],
            [1026, 2, start(34737), 6, entry(2)],
            [2057, 1, start(34736), 8, entry(3)],
            [3072, 0, start(34735) + 46, 2, entry(4)],
            [3080, 1, start(34736) + 8, 8, entry(5)],
            [3090, 1, start(34736) + 16, 8, entry(6)],
            [4097, 2, start(34737) + 6, 7, entry(7)],
            [60001, 3, start(34735) + 2 * 40, 6, entry(8)],
        ];
        assert_eq!(lent.map(|row| row.numbers()), expected);
        let cited = citation(&laid.bytes, 4097);
        assert_eq!(&laid.bytes[cited.start..cited.start + cited.length], b"second");
    }
}

#[test]
fn a_short_ascii_value_stands_in_its_entry() {
    for order in ORDERS {
        for text in ["|", "a|", "ab|", "abc|"] {
            let keys = keys().with(3073, Held::Text(text.as_bytes().to_vec()));
            let laid = plan(order, &keys).lay();
            let cited = citation(&laid.bytes, 3073);
            assert_eq!(cited.verdict, verdict(0, 0));
            assert_eq!(cited.start, laid.spot(34737).entry + 8);
            let part = &laid.bytes[cited.start..cited.start + cited.length];
            assert_eq!(part, &text.as_bytes()[..text.len() - 1]);
        }
    }
}

#[test]
fn a_short_metadata_text_stands_in_its_entry() {
    for order in ORDERS {
        for length in 1..=6 {
            let mut plan = plan(order, &keys());
            plan.set(Tag::bytes(50909, 1, &b"<meta>"[..length]));
            let laid = plan.lay();
            let text = metadata(&laid.bytes, b"outside", 0);
            assert_eq!((text.verdict, text.from, text.length), (verdict(0, 0), 0, length));
            let entry = laid.spot(50909).entry + 8;
            assert_eq!(text.start == entry, length <= 4);
            assert_eq!(&laid.bytes[text.start..text.start + length], &b"<meta>"[..length]);
        }
    }
}

#[test]
fn the_end_of_a_piece_is_a_whole_number_sum() {
    for (family, plan) in plans() {
        let mut laid = plan.lay();
        let (offsets, counts) = laid.places();
        laid.put_long(offsets.value, 0xFFFF_FFF8);
        laid.put_long(counts.value, 0x0000_0010);
        let (got, clause) = judge_clause(&laid.bytes);
        assert_eq!((got, clause), (verdict(13, 0), &*format!("13 {} past n", family.word())));
    }
}

#[test]
fn rule_14_is_tried_on_every_piece() {
    for (family, mut plan) in plans() {
        match family {
            Family::Strips => {
                plan.set(Tag::shorts(257, &[40]));
                plan.set(Tag::shorts(278, &[1]));
            }
            Family::Tiles => {
                plan.set(Tag::shorts(256, &[8 * 16]));
                plan.set(Tag::shorts(257, &[5 * 16]));
            }
        }
        plan.set_pieces(family, &[2; 40], (true, true));
        let laid = plan.lay();
        assert_eq!(judge(&laid.bytes).verdict, verdict(0, 0));
        for piece in 0..40 {
            let mut laid = laid.clone();
            laid.put_long(laid.places().0.value + 4 * piece, laid.directory as u32);
            assert_eq!(judge(&laid.bytes).verdict, verdict(14, piece as u32));
        }
    }
}

/// The verdict on a planned file.
fn of(plan: &Plan) -> (u32, u32) {
    let verdict = judge(&plan.lay().bytes).verdict;
    (verdict.number, verdict.place)
}

/// The plan with a tag set, or without it.
fn with(plan: &Plan, tag: Tag) -> Plan {
    let mut plan = plan.clone();
    plan.set(tag);
    plan
}

fn without(plan: &Plan, tags: &[u16]) -> Plan {
    let mut plan = plan.clone();
    tags.iter().for_each(|&tag| plan.remove(tag));
    plan
}

#[test]
fn any_tag_of_the_other_family_is_both_whatever_its_type() {
    for (family, plan) in plans() {
        assert_eq!(of(&plan), (0, 0));
        let others =
            if family == Family::Strips { &[322, 323, 324, 325][..] } else { &[273, 278, 279] };
        for &tag in others {
            assert_eq!(of(&with(&plan, Tag::longs(tag, &[16]))), (27, 0));
            assert_eq!(of(&with(&plan, Tag::raw(tag, 13, 0, [0; 4]))), (27, 0));
        }
    }
}

#[test]
fn a_part_of_a_family_is_rule_9_and_none_of_either_is_27() {
    for order in ORDERS {
        let (strips, tiles) = (plan(order, &keys()), tiled(plan(order, &keys())));
        assert_eq!(of(&without(&strips, &[273])), (9, 273));
        assert_eq!(of(&without(&strips, &[273, 278])), (9, 273));
        assert_eq!(of(&without(&strips, &[278, 279])), (9, 278));
        assert_eq!(of(&without(&strips, &[273, 278, 279])), (27, 0));
        assert_eq!(of(&without(&tiles, &[325])), (9, 325));
        assert_eq!(of(&without(&tiles, &[322, 323, 324])), (9, 322));
        assert_eq!(of(&without(&tiles, &[323, 324, 325])), (9, 323));
        assert_eq!(of(&without(&tiles, &[277, 324])), (9, 277));
        assert_eq!(of(&without(&tiles, &[324, 34735])), (9, 324));
        assert_eq!(of(&without(&tiles, &[322, 323, 324, 325])), (27, 0));
        assert_eq!(of(&without(&tiles, &[256, 322, 323, 324, 325])), (27, 0), "27 before 9");
    }
}

#[test]
fn rule_27_has_the_list_of_8_and_no_mask() {
    for order in ORDERS {
        let plan = with(&tiled(plan(order, &keys())), Tag::longs(273, &[8, 8, 8]));
        let (both, mut next) = (plan.lay(), plan.lay());
        next.put_long(next.next(), 8);
        assert_eq!(judge(&both.bytes).verdict, verdict(27, 0));
        assert_eq!(judge(&next.bytes).verdict, verdict(27, 0), "a mask comes behind 22");
        assert_eq!(judge_by(&next.bytes, C_13).verdict, verdict(8, 0));
        let list = reading_list(&both.bytes);
        assert_eq!(list, reading_list(&next.bytes));
        assert_eq!(list, reading_list_by(&next.bytes, C_13));
        for tag in [273, 322, 324, 34735] {
            let spot = both.spot(tag);
            let value = spot.value as u64..(spot.value + spot.size) as u64;
            assert!(list.contains(&value), "{tag}");
        }
    }
}

#[test]
fn offsets_of_tiles_are_long_alone() {
    for order in ORDERS {
        let plan = tiled(plan(order, &keys()));
        assert_eq!(of(&with(&plan, Tag::shorts(324, &[8]))), (10, 324));
        assert_eq!(of(&with(&plan, Tag::shorts(325, &[8]))), (0, 0));
        for tag in [322, 323] {
            for wide in [false, true] {
                assert_eq!(of(&with(&plan, Tag::numbers(tag, wide, &[16]))), (0, 0));
                assert_eq!(of(&with(&plan, Tag::numbers(tag, wide, &[16, 16]))), (10, tag.into()));
            }
            assert_eq!(of(&with(&plan, Tag::bytes(tag, 1, &[16]))), (10, tag.into()));
        }
    }
}

#[test]
fn the_size_of_a_tile_is_a_positive_multiple_of_16_without_an_upper_limit() {
    for order in ORDERS {
        let plan = tiled(plan(order, &keys()));
        for tag in [322, 323] {
            let sized = |number: u32| of(&with(&plan, Tag::longs(tag, &[number])));
            for number in [16, 32, 1_000_000, 1_000_016, 4_294_967_280] {
                assert_eq!(sized(number), (0, 0), "{number}");
            }
            for number in [0, 1, 8, 15, 17, 4_294_967_279, 4_294_967_281, 4_294_967_295] {
                assert_eq!(sized(number), (11, tag.into()), "{number}");
            }
        }
    }
}

#[test]
fn tiles_are_counted_across_and_down_each_rounded_up() {
    let sizes = [
        // the areas would give 2, 1, 1 and 1
        ((17, 17), (16, 16), 4),
        ((40, 1), (16, 16), 3),
        ((1, 40), (16, 16), 3),
        ((16, 48), (48, 16), 3),
        // and here as many
        ((32, 32), (16, 16), 4),
        ((1_000_000, 1_000_000), (4_294_967_280, 4_294_967_280), 1),
    ];
    for order in ORDERS {
        for ((width, length), (of_width, of_length), tiles) in sizes {
            let mut plan = tiled(plan(order, &keys()));
            for (tag, number) in [(256, width), (257, length), (322, of_width), (323, of_length)] {
                plan.set(Tag::longs(tag, &[number]));
            }
            let counted = |offsets: usize, counts: usize| {
                let mut plan = plan.clone();
                plan.set_pieces(Family::Tiles, &vec![2; offsets], (true, true));
                plan.set(Tag::longs(325, &vec![2; counts]));
                of(&plan)
            };
            assert_eq!(counted(tiles, tiles), (0, 0));
            assert_eq!(counted(tiles + 1, tiles + 1), (12, 324));
            assert_eq!(counted(tiles, tiles + 1), (12, 325));
            if tiles > 1 {
                assert_eq!(counted(tiles - 1, tiles - 1), (12, 324));
                assert_eq!(counted(tiles, tiles - 1), (12, 325));
            }
        }
    }
}

#[test]
fn scale_y_keeps_its_sign() {
    let negative = changed(SCALE + 8 + 7, &[0xBF]);
    assert_eq!(judge_clause(&negative), (verdict(21, 33550), "21 33550 Y not above 0"));
}

#[test]
fn operations_are_rounded_in_the_written_order() {
    for order in ORDERS {
        let mut plan = plan(order, &keys());
        plan.remove(33550);
        plan.remove(33922);
        let big = 9_007_199_254_740_992.0;
        let mut matrix = [0.0; 16];
        (matrix[0], matrix[1], matrix[3]) = (big / 4.0, 0.5, -big);
        (matrix[4], matrix[5], matrix[7], matrix[15]) = (1.0, -0.0, -4.0, 1.0);
        plan.set(Tag::doubles(34264, &matrix));
        let judged = judge(&plan.lay().bytes);
        assert_eq!(judged.verdict, verdict(0, 0));
        let six = [big / 4.0, 0.5, -big, 1.0, -0.0, -4.0];
        assert_eq!(judged.georeference, Georeference::Affine(six));
        // big + 1 rounds to big before big is taken away again.
        assert_eq!(bits(judged.corners), bits([-big, -4.0, 0.0, 0.0]));
    }
}

#[test]
fn no_step_is_fused() {
    // (1 + 2^-52) × (1 - 2^-52) rounds to 1, so taking it from 1 leaves +0.
    let (up, down) = (1.0 + f64::EPSILON, 1.0 - f64::EPSILON);
    let georeference = Georeference::Scaled([0.0, 0.0, 0.0, 1.0, 1.0, down]);
    assert_eq!(georeference.place(0.0, up).1.to_bits(), 0);
    let fused = (-up).mul_add(down, 1.0);
    assert_ne!(fused, 0.0);
}

#[test]
fn a_block_is_little_endian_without_gaps_or_sharing() {
    for order in ORDERS {
        let mut keys = keys()
            .with(1026, Held::Text(b"ab|".to_vec()))
            .with(3073, Held::Text(b"b|".to_vec()))
            .with(60001, Held::Array(vec![0x0102, 0x0304]))
            .with(60002, Held::Array(vec![0x0304]))
            .with(60003, Held::Doubles(vec![0x0102_0304_0506_0708]));
        keys.share = true;
        let laid = plan(order, &keys).lay();
        let mut out = [0xEE; 200];
        let block = key_block(&laid.bytes, &mut out);
        assert_eq!((block.verdict, block.lengths), (verdict(0, 0), [72 + 6, 8, 5]));
        let entry = |at: usize| &out[8 + 8 * at..16 + 8 * at];
        assert_eq!(out[..8], [1, 0, 1, 0, 0, 0, 8, 0]);
        assert_eq!(entry(2), [0x02, 0x04, 0xB1, 0x87, 3, 0, 0, 0]);
        assert_eq!(entry(4), [0x01, 0x0C, 0xB1, 0x87, 2, 0, 3, 0]);
        assert_eq!(entry(5), [0x61, 0xEA, 0xAF, 0x87, 2, 0, 36, 0]);
        assert_eq!(entry(6), [0x62, 0xEA, 0xAF, 0x87, 1, 0, 38, 0]);
        assert_eq!(entry(7), [0x63, 0xEA, 0xB0, 0x87, 1, 0, 0, 0]);
        assert_eq!(out[72..78], [2, 1, 4, 3, 4, 3]);
        assert_eq!(out[78..86], [8, 7, 6, 5, 4, 3, 2, 1]);
        assert_eq!(&out[86..91], b"ab|b|");
        assert!(out[91..].iter().all(|byte| *byte == 0xEE));
        let back = read_block(&out[..78], &out[78..86], &out[86..91]);
        assert_eq!(back, ReadBack { verdict: verdict(0, 0), keys: 8, minor: 0 });
    }
}

#[test]
fn the_block_reader_gives_no_k_after_a_refusal() {
    for minor in [0, 1] {
        let [directory, doubles, characters] = keys().encode().of_minor(minor).runs();
        let back = read_block(&directory, &doubles, &characters);
        assert_eq!(back, ReadBack { verdict: verdict(0, 0), keys: 3, minor: minor.into() });
        let back = read_block(&directory[..31], &doubles, &characters);
        assert_eq!(back, ReadBack { verdict: verdict(15, 0), keys: 0, minor: 0 });
    }
    let nothing = ReadBack { verdict: verdict(15, 0), keys: 0, minor: 0 };
    assert_eq!(read_block(&[], &[], &[]), nothing);
}
