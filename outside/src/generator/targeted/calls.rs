//! Rules 23 to 26: rows, key block and citation of accepted files, and that
//! each call gives rules 1 to 22 and 27 first. `masks` has 28.

use super::bases::{few_keys, many_keys, Bases};
use super::{Call, Cases};
use crate::generator::keyplan::{Held, Keys};
use crate::generator::plan::Tag;
use crate::reader::tables::Family;

pub fn cases(bases: &mut Bases, cases: &mut Cases) {
    rows(bases, cases);
    starts(bases, cases);
    room(bases, cases);
    citations(bases, cases);
    earlier_rules_first(bases, cases);
}

/// A plain file with these keys.
fn file(bases: &mut Bases, keys: &Keys) -> Vec<u8> {
    let mut plan = bases.plain();
    plan.set_keys(&keys.encode());
    plan.lay().bytes
}

fn rows(bases: &mut Bases, cases: &mut Cases) {
    let clause = "23 fewer rows than K";
    for keys in [few_keys(), many_keys()] {
        let (file, k) = (file(bases, &keys), keys.list.len());
        for lent in [0, 1, k - 1] {
            cases.add(clause, true, Call::Rows(lent), file.clone(), (23, k as u32));
        }
        for lent in [k, k + 1, 256] {
            cases.add(clause, false, Call::Rows(lent), file.clone(), (0, 0));
        }
    }
}

/// 252 keys of kind other that share one value at a location and fill it to
/// `start` elements, then key 20000 whose value starts there, then another.
pub fn filled(location: u16, start: usize) -> Keys {
    let before = if location == 34735 { 4 + 4 * 256 } else { 0 };
    let each = (start - before) / 251;
    let rest = (start - before) % 251;
    let mut keys = few_keys();
    for number in 0..251 {
        let count = each + usize::from(number < rest);
        keys.list.push((10_000 + number as u16, Held::Raw(location, count as u16, 0)));
    }
    keys.list.push((20_000, Held::Raw(location, 1, 0)));
    keys.list.push((20_001, Held::Number(0)));
    match location {
        34735 => {}
        34736 => keys.spare.1 = vec![0x3FF0_0000_0000_0000; each + 1],
        _ => keys.spare.2 = vec![b'x'; each + 1],
    }
    keys
}

/// The last start index that fits, and the next; 24 comes before 25.
fn starts(bases: &mut Bases, cases: &mut Cases) {
    for location in [34735, 34736, 34737] {
        let clause = format!("24 start in {location}");
        let kept = file(bases, &filled(location, 65_535));
        cases.add(&clause, false, Call::Block(1 << 21), kept, (0, 0));
        let mut broken = filled(location, 65_536);
        for room in [1 << 21, 0] {
            let file = file(bases, &broken);
            cases.add(&clause, true, Call::Block(room), file, (24, 20_000));
        }
        broken.list.pop();
        broken.list.push((20_001, Held::Raw(location, 1, 0)));
        let file = file(bases, &broken);
        cases.add(&clause, true, Call::Block(1 << 21), file, (24, 20_000));
    }
}

fn room(bases: &mut Bases, cases: &mut Cases) {
    let shared = few_keys()
        .with(1026, Held::Text(b"name|".to_vec()))
        .with(3073, Held::Text(b"name|".to_vec()))
        .with(60001, Held::Array(vec![1, 2]))
        .with(60002, Held::Array(vec![2]));
    for mut keys in [few_keys(), many_keys(), shared] {
        let needed: usize = keys.encode().runs().iter().map(Vec::len).sum();
        keys.share = true;
        let file = file(bases, &keys);
        for room in [0, 1, needed - 1] {
            let want = (25, needed as u32);
            cases.add("25 output too short", true, Call::Block(room), file.clone(), want);
        }
        for room in [needed, needed + 1] {
            cases.add("25 output too short", false, Call::Block(room), file.clone(), (0, 0));
        }
    }
}

fn citations(bases: &mut Bases, cases: &mut Cases) {
    let keys = many_keys().with(3073, Held::Text(b"|".to_vec()));
    let file = file(bases, &keys);
    for key in [1026, 3073] {
        for clause in
            ["26 ASCII key absent", "26 present key not ASCII", "26 neither present nor ASCII"]
        {
            cases.add(clause, false, Call::Citation(key), file.clone(), (0, 0));
        }
    }
    let asked: [(&str, &[u32]); 3] = [
        ("26 ASCII key absent", &[2049, 4097]),
        ("26 present key not ASCII", &[1024, 1025, 2057, 3072, 60000, 60003]),
        (
            "26 neither present nor ASCII",
            &[0, 1027, 2050, 65_535, 65_536 + 1026, 1 << 31, u32::MAX],
        ),
    ];
    for (clause, numbers) in asked {
        for &key in numbers {
            cases.add(clause, true, Call::Citation(key), file.clone(), (26, key));
        }
    }
}

/// A refused file is refused by its own rule in every call.
fn earlier_rules_first(bases: &mut Bases, cases: &mut Cases) {
    let mut scaled = bases.rich().lay();
    scaled.put_double(scaled.spot(33550).value, 0);
    let mut mixed = bases.rich();
    mixed.set(Tag::longs(if bases.family == Family::Strips { 323 } else { 279 }, &[16]));
    for (clause, file, want) in [
        ("21 33550 X not above 0", scaled.bytes, (21, 33550)),
        ("27 both families", mixed.lay().bytes, (27, 0)),
    ] {
        for call in [Call::Rows(0), Call::Rows(256), Call::Citation(7), Call::Citation(1026)] {
            cases.add(clause, true, call, file.clone(), want);
        }
        for room in [0, 65_536] {
            cases.add(clause, true, Call::Block(room), file.clone(), want);
        }
    }
    let empty = Vec::new();
    for call in [Call::Rows(0), Call::Citation(1026), Call::Block(0)] {
        cases.add("1 n below 8", true, call, empty.clone(), (1, 0));
    }
}
