//! The tables against the words of document 01 and of requests C-11 and C-14,
//! set down here again.

use outside::reader::tables::{
    kind_of, of_mask, outside, Allowed, Count, Family, Kind, Need, Needed, TagRow, KEYS, TAGS,
};

/// The table of tags: numbers, needed, types, count, values.
const OF_TAGS: &str = "
256 257 | yes | SHORT LONG | 1 | 1-1000000
258 | yes | SHORT | 1 or more | 1, 8, 16, 32
259 | yes | SHORT | 1 | 1, 2, 32773
262 | yes | SHORT | 1 | 0-3
273 279 | in strips | SHORT LONG | 1 or more | any
277 | yes | SHORT | 1 | 1-8
278 | in strips | SHORT LONG | 1 | 1-4294967295
284 | no | SHORT | 1 | 1
322 323 | in tiles | SHORT LONG | 1 | positive multiples of 16
324 | in tiles | LONG | 1 or more | any
325 | in tiles | SHORT LONG | 1 or more | any
33550 | no | DOUBLE | 3 | any
33922 | no | DOUBLE | 6 | any
34264 | no | DOUBLE | 16 | any
34735 | yes | SHORT | 4 or more | any
34736 | no | DOUBLE | 1 or more | any
34737 | no | ASCII | 1 or more | any
50909 | no | BYTE | 1 or more | any
";

/// The same of a mask whose image is 640 wide and 480 long.
const OF_MASK: &str = "
254 | yes | LONG | 1 | 4
256 | yes | SHORT LONG | 1 | 640
257 | yes | SHORT LONG | 1 | 480
258 | yes | SHORT | 1 or more | 1
259 | yes | SHORT | 1 | 1, 2, 32773
262 | yes | SHORT | 1 | 4
273 279 | in strips | SHORT LONG | 1 or more | any
277 | yes | SHORT | 1 | 1
278 | in strips | SHORT LONG | 1 | 1-4294967295
284 | no | SHORT | 1 | 1
322 323 | in tiles | SHORT LONG | 1 | positive multiples of 16
324 | in tiles | LONG | 1 or more | any
325 | in tiles | SHORT LONG | 1 or more | any
";

const OF_ASCII: &str = "1026, 2049, 3073, 4097";
const OF_DOUBLE: &str = "2053, 2055, 2057-2059, 2061, 3077-3095";
const OF_SHORT: &str =
    "1024, 1025, 2048, 2050-2052, 2054, 2056, 2060, 3072, 3074-3076, 4096, 4098, 4099";

fn type_number(word: &str) -> u16 {
    match word {
        "BYTE" => 1,
        "ASCII" => 2,
        "SHORT" => 3,
        "LONG" => 4,
        "DOUBLE" => 12,
        _ => panic!("{word}"),
    }
}

fn count(words: &str) -> Count {
    match words.split_once(' ') {
        Some((number, "or more")) => Count::AtLeast(number.parse().unwrap()),
        _ => Count::Exactly(words.parse().unwrap()),
    }
}

fn need(words: &str) -> Need {
    match words {
        "yes" => Need::Always,
        "no" => Need::Never,
        "in strips" => Need::In(Family::Strips),
        "in tiles" => Need::In(Family::Tiles),
        _ => panic!("{words}"),
    }
}

/// Whether the words allow a number.
fn allowed(words: &str, number: u32) -> bool {
    let within = |part: &str| {
        let (low, high) = part.split_once('-').unwrap_or((part, part));
        (low.parse().unwrap()..=high.parse().unwrap()).contains(&number)
    };
    match words {
        "any" => true,
        "positive multiples of 16" => number > 0 && number.is_multiple_of(16),
        _ => words.split(", ").any(within),
    }
}

/// Numbers around everything that a value is compared with.
fn tried() -> impl Iterator<Item = u32> {
    let far = [1_000_000, 1 << 24, 1 << 31, u32::MAX - 31, u32::MAX - 15, u32::MAX];
    (0..70_000).chain(far.into_iter().flat_map(|number| number - 2..=number.saturating_add(2)))
}

#[test]
fn the_tables_of_tags_are_the_documents() {
    tells(OF_TAGS, &TAGS);
    tells(OF_MASK, &of_mask(640, 480));
}

/// The words tell of these rows, and of all of them.
fn tells(words: &str, rows: &[TagRow]) {
    let mut told = 0;
    for line in words.lines().filter(|line| !line.is_empty()) {
        let columns: Vec<&str> = line.split(" | ").collect();
        for tag in columns[0].split(' ') {
            let tag: u16 = tag.parse().unwrap();
            let row = rows.iter().find(|row| row.tag == tag).expect("a row of the table");
            let kinds: Vec<u16> = columns[2].split(' ').map(type_number).collect();
            assert_eq!((row.need, row.kinds), (need(columns[1]), &kinds[..]), "{tag}");
            assert_eq!(row.count, count(columns[3]), "{tag}");
            for number in tried() {
                let may = outside(row.allowed, number).is_none();
                assert_eq!(may, allowed(columns[4], number), "{tag} {number}");
            }
            told += 1;
        }
    }
    assert_eq!(told, rows.len());
    assert!(rows.windows(2).all(|pair| pair[0].tag < pair[1].tag));
}

/// The numbers of a list such as "2055, 2057-2059".
fn numbers(list: &str) -> Vec<u16> {
    let part = |words: &str| -> Vec<u16> {
        let (first, last) = words.split_once('-').unwrap_or((words, words));
        (first.parse().unwrap()..=last.parse().unwrap()).collect()
    };
    list.split(", ").flat_map(part).collect()
}

#[test]
fn the_kinds_of_the_45_keys_are_the_documents() {
    let lists = [(Kind::Ascii, OF_ASCII), (Kind::Double, OF_DOUBLE), (Kind::Short, OF_SHORT)];
    let mut told = 0;
    for (kind, list) in lists {
        for key in numbers(list) {
            assert_eq!(kind_of(key), kind, "{key}");
            told += 1;
        }
    }
    assert_eq!((told, KEYS.len()), (45, 45));
    assert!(KEYS.windows(2).all(|pair| pair[0].key < pair[1].key));
    let others = (0..=65_535).filter(|&key| kind_of(key) == Kind::Other).count();
    assert_eq!(others, 65_536 - 45);
}

#[test]
fn needed_and_tested_keys_are_the_documents() {
    let needed: Vec<(u16, Needed)> = KEYS
        .iter()
        .filter(|row| row.needed != Needed::No)
        .map(|row| (row.key, row.needed))
        .collect();
    let told = [
        (1024, Needed::Always),
        (1025, Needed::Always),
        (2048, Needed::IfModel(2)),
        (3072, Needed::IfModel(1)),
    ];
    assert_eq!(needed, told);
    let tested: Vec<u16> =
        KEYS.iter().filter(|row| row.allowed != Allowed::Any).map(|row| row.key).collect();
    assert_eq!(tested, [1024, 1025, 2048, 2054, 3072, 3076, 4096]);
}
