//! Rule 17: location, count and value index of every kind of key.

use super::KeyBench;
use crate::generator::keyplan::{Encoded, Held, Keys};
use crate::generator::targeted::bases::{few_keys, many_keys};
use crate::reader::tables::{KeyRow, Kind, KEYS};

pub fn cases(bench: &mut KeyBench) {
    known_locations(bench);
    other_locations(bench);
    counts(bench);
    other_counts(bench);
    double_indexes(bench);
    ascii_indexes(bench);
    other_indexes(bench);
    final_characters(bench);
    absent_tags(bench);
    first_fault(bench);
}

/// Where a key stands in the directory.
fn position(keys: &Keys, key: u16) -> usize {
    keys.list.iter().position(|known| known.0 == key).expect("a planned key")
}

/// A value that a known key may hold.
fn right(row: &KeyRow) -> Held {
    match row.kind {
        Kind::Short => Held::Number(row.allowed.ranges().map_or(4242, |ranges| ranges[0].0 as u16)),
        Kind::Double => Held::Doubles(vec![0x4048_F5C2_8F5C_28F6]),
        _ => Held::Text(b"name|".to_vec()),
    }
}

/// Each of the 45 keys at its own location, and at every other one.
fn known_locations(bench: &mut KeyBench) {
    for row in &KEYS {
        let mut keys = many_keys();
        if row.key != 1024 {
            keys.set(row.key, right(row));
        }
        let (encoded, at) = (keys.encode(), position(&keys, row.key));
        let clause = format!("17 {} location", row.kind.word());
        bench.kept(&clause, &encoded);
        let own = encoded.directory[4 + 4 * at + 1];
        for location in [0, 1, 34735, 34736, 34737].into_iter().filter(|&each| each != own) {
            let moved = encoded.clone().put(at, 1, location);
            bench.broken(&clause, &moved, row.key);
        }
    }
    let (keys, at) = (many_keys().encode(), position(&many_keys(), 1026));
    for location in [34734, 34738, 33550, 50909, 65_535] {
        bench.broken("17 ASCII location", &keys.clone().put(at, 1, location), 1026);
    }
}

/// Neighbours of the known keys are of kind other: four locations.
fn other_locations(bench: &mut KeyBench) {
    let clause = "17 other location";
    for key in [1, 1023, 1027, 2047, 2062, 3071, 3096, 4095, 4100, 65_535] {
        let held = [
            Held::Number(9),
            Held::Array(vec![5, 6]),
            Held::Doubles(vec![3, 4]),
            Held::Text(b"no bar".to_vec()),
        ];
        for value in held {
            bench.kept(clause, &few_keys().with(key, value).encode());
        }
        let keys = many_keys().with(key, Held::Number(0));
        let (encoded, at) = (keys.encode(), position(&keys, key));
        for location in [1, 33550, 34734, 34738, 65_535] {
            bench.broken(clause, &encoded.clone().put(at, 1, location), key);
        }
    }
}

fn counts(bench: &mut KeyBench) {
    let keys = many_keys();
    let encoded = keys.encode();
    for key in [1024, 1025, 2054, 3072, 4096] {
        bench.kept("17 SHORT count", &encoded);
        for count in [0, 2, 256, 65_535] {
            let wrong = encoded.clone().put(position(&keys, key), 2, count);
            bench.broken("17 SHORT count", &wrong, key);
        }
    }
    let at = position(&keys, 2057);
    bench.kept("17 DOUBLE count", &encoded);
    for count in [0, 2, 3, 256, 65_535] {
        bench.broken("17 DOUBLE count", &encoded.clone().put(at, 2, count), 2057);
    }
    for key in [1026, 2049, 3073, 4097] {
        let keys = many_keys().with(key, Held::Text(b"|".to_vec()));
        let (encoded, at) = (keys.encode(), position(&keys, key));
        bench.kept("17 ASCII count", &encoded);
        bench.broken("17 ASCII count", &encoded.put(at, 2, 0), key);
    }
}

fn other_counts(bench: &mut KeyBench) {
    let keys = many_keys();
    let encoded = keys.encode();
    for (key, location) in [(60000, 0), (60001, 34735), (60002, 34736), (60003, 34737)] {
        let clause = format!("17 other count at {location}");
        let at = position(&keys, key);
        bench.broken(&clause, &encoded.clone().put(at, 2, 0), key);
        bench.kept(&clause, &encoded.clone().put(at, 2, 1));
        if location == 0 {
            bench.broken(&clause, &encoded.clone().put(at, 2, 2), key);
            bench.broken(&clause, &encoded.clone().put(at, 2, 65_535), key);
        } else {
            bench.kept(&clause, &encoded.clone().put(at, 2, 2));
        }
    }
}

/// Indexes of doubles count elements: the last one fits, the next does not.
fn double_indexes(bench: &mut KeyBench) {
    let keys = few_keys().with(2057, Held::Doubles(vec![1])).with(3080, Held::Doubles(vec![2]));
    let (encoded, at) = (keys.encode(), position(&keys, 2057));
    for index in [0, 1] {
        bench.kept("17 DOUBLE index", &encoded.clone().put(at, 3, index));
    }
    for index in [2, 8, 65_535] {
        bench.broken("17 DOUBLE index", &encoded.clone().put(at, 3, index), 2057);
    }
}

fn ascii_indexes(bench: &mut KeyBench) {
    let keys = few_keys().with(1026, Held::Text(b"one|two|".to_vec()));
    let (encoded, at) = (keys.encode(), position(&keys, 1026));
    let put = |count: u16, index: u16| encoded.clone().put(at, 2, count).put(at, 3, index);
    for (count, index) in [(8, 0), (4, 4), (4, 0), (1, 7), (1, 3)] {
        bench.kept("17 ASCII index", &put(count, index));
    }
    let beyond = [(9, 0), (8, 1), (1, 8), (4, 5), (1, 65_535), (65_535, 1), (65_535, 65_535)];
    for (count, index) in beyond {
        bench.broken("17 ASCII index", &put(count, index), 1026);
    }
}

/// Exactly to the end of the tag, then one element further.
fn other_indexes(bench: &mut KeyBench) {
    let keys = many_keys();
    let encoded = keys.encode();
    let numbers = encoded.directory.len() as u16;
    let (doubles, characters) = (encoded.doubles.len() as u16, encoded.characters.len() as u16);
    let places = [(60001, 34735, numbers), (60002, 34736, doubles), (60003, 34737, characters)];
    for (key, location, elements) in places {
        let clause = format!("17 other index at {location}");
        let at = position(&keys, key);
        let put = |count: u16, index: u16| encoded.clone().put(at, 2, count).put(at, 3, index);
        for (count, index) in [(elements, 0), (1, elements - 1), (2, elements - 2), (1, 0)] {
            bench.kept(&clause, &put(count, index));
        }
        for (count, index) in
            [(elements + 1, 0), (1, elements), (2, elements - 1), (1, 65_535), (65_535, 1)]
        {
            bench.broken(&clause, &put(count, index), key);
        }
    }
}

/// The last character of an ASCII key, and no other, is "|".
fn final_characters(bench: &mut KeyBench) {
    let with = |text: &[u8], count: u16, index: u16| -> Encoded {
        let keys = few_keys().with(1026, Held::Raw(34737, count, index));
        Encoded { characters: text.to_vec(), ..keys.encode() }
    };
    let clause = "17 ASCII final";
    for (text, count, index) in
        [(&b"abc|"[..], 4, 0), (b"ab|", 3, 0), (b"|", 1, 0), (b"x|y|", 1, 1)]
    {
        bench.kept(clause, &with(text, count, index));
    }
    let missing = [
        (&b"abc|"[..], 3, 0),
        (b"ab|c", 4, 0),
        (b"abc{", 4, 0),
        (b"abc}", 4, 0),
        (b"abc\0", 4, 0),
        (b"x", 1, 0),
        (b"a long text|\0", 13, 0),
        (b"a long text|b", 13, 0),
        (b"|a long text", 12, 0),
        (b"one|two|", 6, 1),
    ];
    for (text, count, index) in missing {
        bench.broken(clause, &with(text, count, index), 1026);
    }
    for key in [2049, 3073, 4097] {
        bench.broken(clause, &few_keys().with(key, Held::Text(b"bar".to_vec())).encode(), key);
        bench.kept(clause, &few_keys().with(key, Held::Text(b"ba|".to_vec())).encode());
    }
}

/// A location whose tag is not in the file.
fn absent_tags(bench: &mut KeyBench) {
    let places = [
        ("17 DOUBLE absent", 2057, 34736),
        ("17 ASCII absent", 1026, 34737),
        ("17 other absent at 34736", 60002, 34736),
        ("17 other absent at 34737", 60003, 34737),
    ];
    for (clause, key, location) in places {
        for index in [0, 1, 65_535] {
            let keys = few_keys().with(key, Held::Raw(location, 1, index)).encode();
            bench.broken(clause, &keys, key);
        }
        let present =
            if location == 34736 { Held::Doubles(vec![0]) } else { Held::Text(b"|".to_vec()) };
        bench.kept(clause, &few_keys().with(key, present).encode());
    }
}

/// Of two keys at fault the first is named.
fn first_fault(bench: &mut KeyBench) {
    let keys = many_keys();
    let mut encoded = keys.encode();
    let clauses = ["17 SHORT location", "17 SHORT location", "17 ASCII location"];
    for at in (0..keys.list.len()).rev() {
        encoded = encoded.put(at, 1, 7);
        if at < 3 {
            bench.broken(clauses[at], &encoded, keys.list[at].0);
        }
    }
}
