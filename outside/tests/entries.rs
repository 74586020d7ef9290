//! Request C-15, where the entry stands: each row beside the eight bytes that
//! it leads to, which also say what its other numbers are.

mod common;

use common::kept::files;
use common::{field, held, keys, plan_like_a, rows, tiled, verdict, UNTOUCHED};
use outside::generator::keyplan::Held;
use outside::reader::{key_rows, Order};
use std::collections::BTreeMap;

/// Holds each row of an accepted file to the bytes of its entry. The locations
/// of the keys.
fn locations(file: &[u8]) -> Vec<u64> {
    let little = file[0] == b'I';
    let [directory, doubles, characters] = held::places(file).map(|place| place.start as u64);
    let mut locations = Vec::new();
    for (row, place) in rows(file).iter().zip((directory + 8..).step_by(8)) {
        let short = |at: u64| held::number(little, file, (place + at) as usize, 2);
        let (key, location, count, index) = (short(0), short(2), short(4), short(6));
        let (first, length) = match location {
            0 => (place + 6, 2),
            34735 => (directory + 2 * index, 2 * count),
            34736 => (doubles + 8 * index, 8 * count),
            _ => (characters + index, count),
        };
        let numbers = [key, u64::from(row.kind), first, length, place];
        assert_eq!(row.numbers().map(u64::from), numbers, "{file:02X?}");
        locations.push(location);
    }
    locations
}

#[test]
fn every_row_leads_to_its_entry() {
    let mut seen: BTreeMap<(u8, u64), usize> = BTreeMap::new();
    for file in files(131).chain(field()).filter(|file| !rows(file).is_empty()) {
        for location in locations(&file) {
            *seen.entry((file[0], location)).or_default() += 1;
        }
    }
    let wanted = [b'I', b'M'].map(|order| [0, 34735, 34736, 34737].map(|at| (order, at)));
    assert!(seen.keys().eq(wanted.as_flattened()), "{seen:?}");
    assert!(seen.values().all(|rows| *rows > 2_000), "{seen:?}");
}

/// Of 256 keys the last entry stands 8 + 8 * 255 bytes behind the start.
#[test]
fn the_last_of_256_entries() {
    for order in [Order::Little, Order::Big] {
        let mut keys = keys();
        for key in 0..253 {
            keys.set(60_000 + key, Held::Array(vec![key]));
        }
        let strips = plan_like_a(order, &keys.encode());
        for laid in [strips.clone(), tiled(strips)].map(|plan| plan.lay()) {
            let mut lent = [UNTOUCHED; 256];
            assert_eq!(key_rows(&laid.bytes, &mut lent), (verdict(0, 0), 256));
            let start = laid.spot(34735).value as u32;
            assert_eq!((lent[0].entry, lent[255].entry), (start + 8, start + 2048));
            assert_eq!(locations(&laid.bytes).len(), 256);
        }
    }
}
