//! Writes the files that the program `vectors` judges, with what it must print:
//! data DIR [SEED] fills DIR/data, DIR/args and DIR/stdout. There is file A with
//! its marked changes and one more, a file of tiles, one of three metadata tags
//! and one with a mask with changes of them, and for each clause of rules 1 to 22,
//! 27 and 28 the smallest targeted file beyond its boundary and within it, in both
//! byte orders; files of other producers, which `field` has, are taken in as they
//! are.

use outside::generator::plan::{Laid, Plan, Tag};
use outside::generator::{random, targeted, Call};
use outside::reader::tables::Family;
use outside::reader::{judge, key_rows, Order, Row};
use std::collections::BTreeMap;
use std::fmt::Write;
use std::path::Path;

/// No file above this size is kept.
const LARGEST: usize = 4000;

/// A change of a file, by name.
type Change<T> = (&'static str, fn(&mut T));

fn main() {
    let mut arguments = std::env::args().skip(1);
    let folder = arguments.next().expect("data DIR [SEED]");
    let seed = arguments.next().and_then(|word| word.parse().ok()).unwrap_or(1);
    let folder = Path::new(&folder);
    let mut files = clauses(seed);
    files.extend(marked());
    files.extend(changed("tiled", tiles, &TILED, &TILED_BYTES));
    files.extend(changed("mosaic", mosaic, &[], &MOSAIC_BYTES));
    files.extend(changed("masked", mask, &MASKED, &MASKED_BYTES));
    files.extend(mixed(seed));
    files.extend(real(&Path::new(env!("CARGO_MANIFEST_DIR")).join("field")));
    write(folder, &files).expect("the files are written");
    println!("{} files", files.len());
}

/// File A, document 01's marked changes of it, and one more: the lowest minor
/// revision that rule 15 refuses.
fn marked() -> BTreeMap<String, Vec<u8>> {
    let a: &[u8] = include_bytes!("../../../crates/bench/stdin");
    let exchanged = [0x01, 0x04, 0, 0, 1, 0, 1, 0, 0x00, 0x04, 0, 0, 1, 0, 1, 0];
    let changes: [(&str, usize, &[u8]); 13] = [
        ("as-it-is", 0, &[]),
        ("big-endian-mark", 0, &[0x4D, 0x4D]),
        ("next-offset-8", 154, &[8, 0, 0, 0]),
        ("strip-at-263", 78, &[0x07, 0x01]),
        ("strip-at-261", 78, &[0x05, 0x01]),
        ("minor-revision-1", 234, &[1, 0]),
        ("minor-revision-2", 234, &[2, 0]),
        ("1024-and-1025-exchanged", 238, &exchanged),
        ("1025-at-34737", 248, &[0xB1, 0x87]),
        ("1024-is-2", 244, &[2, 0]),
        ("3072-is-32662", 260, &[0x96, 0x7F]),
        ("scale-x-0", 158, &[0; 8]),
        ("1025-is-2", 252, &[2, 0]),
    ];
    let mut files: BTreeMap<String, Vec<u8>> = BTreeMap::new();
    for (name, at, bytes) in changes {
        let mut file = a.to_vec();
        file[at..at + bytes.len()].copy_from_slice(bytes);
        files.insert(format!("A-{name}"), file);
    }
    files.insert("A-empty".into(), Vec::new());
    files
}

/// Sets tiles of six bytes each, and both tags that tell of them.
fn set_tiles(plan: &mut Plan, count: usize) {
    plan.set_pieces(Family::Tiles, &vec![6; count], (true, false));
}

/// An accepted picture of 40 by 20 in tiles of 16 by 16: three across and two
/// down.
fn tiles(order: Order) -> Plan {
    let mut plan = Plan::new(order);
    let numbers =
        [(256, 40), (257, 20), (258, 8), (259, 1), (262, 1), (277, 1), (322, 16), (323, 16)];
    numbers.iter().for_each(|&(tag, number)| plan.set(Tag::shorts(tag, &[number])));
    plan.set(Tag::doubles(33550, &[0.5, 0.5, 0.0]));
    plan.set(Tag::doubles(33922, &[0.0, 0.0, 0.0, 500_000.0, 4_000_000.0, 0.0]));
    let keys = [1, 1, 0, 3, 1024, 0, 1, 1, 1025, 0, 1, 1, 3072, 0, 1, 32633];
    plan.set(Tag::shorts(34735, &keys));
    set_tiles(&mut plan, 6);
    plan
}

/// Changes of the tags and of the key header of that file.
const TILED: [Change<Plan>; 11] = [
    ("as-it-is", |_| ()),
    ("one-tile-of-the-largest-size", |plan| {
        plan.set(Tag::longs(322, &[4_294_967_280]));
        plan.set(Tag::longs(323, &[4_294_967_280]));
        set_tiles(plan, 1);
    }),
    ("byte-counts-LONG", |plan| plan.set(Tag::longs(325, &[6; 6]))),
    ("27-both-by-278", |plan| plan.set(Tag::shorts(278, &[16]))),
    ("27-both-by-273-of-no-type", |plan| plan.set(Tag::raw(273, 13, 0, [0; 4]))),
    ("27-neither", |plan| plan.tags.retain(|known| !(322..=325).contains(&known.tag))),
    ("27-neither--256-absent", |plan| {
        plan.tags.retain(|known| known.tag != 256 && !(322..=325).contains(&known.tag));
    }),
    ("9-277--323-absent", |plan| plan.tags.retain(|known| ![277, 323].contains(&known.tag))),
    ("12-324-one-quotient", |plan| set_tiles(plan, 4)),
    ("minor-revision-1", |plan| plan.set_minor(1)),
    ("15-minor-revision-2", |plan| plan.set_minor(2)),
];

/// Changes of single bytes of that file.
const TILED_BYTES: [Change<Laid>; 3] = [
    ("27-neither--next-offset-8", |laid| {
        // no rule asks for 318 to 321
        for (tag, other) in [(322, 318), (323, 319), (324, 320), (325, 321)] {
            laid.put_short(laid.spot(tag).entry, other);
        }
        laid.put_long(laid.next(), 8);
    }),
    ("13-past-n", |laid| laid.put_long(laid.spot(324).value + 20, laid.n() as u32 - 5)),
    ("14-directory", |laid| laid.put_long(laid.spot(324).value + 8, laid.directory as u32)),
];

/// Sets the tags of the three metadata entries.
fn renamed(laid: &mut Laid, tags: [u16; 3]) {
    let texts = laid.all(50909);
    (0..3).for_each(|at| laid.put_short(texts[at].entry, tags[at]));
}

/// Puts the first tile on the first byte of a metadata text.
fn tile_on(laid: &mut Laid, text: usize) {
    laid.put_long(laid.spot(324).value, laid.all(50909)[text].value as u32);
    laid.put_short(laid.spot(325).value, 1);
}

/// The file of tiles with three metadata tags, of which the second is in its
/// entry.
fn mosaic(order: Order) -> Plan {
    let mut plan = tiles(order);
    for text in [&b"<first sheet/>"[..], b"two", b"<third/>"] {
        plan.add(Tag::bytes(50909, 1, text));
    }
    plan
}

/// Changes of single bytes of that file.
const MOSAIC_BYTES: [Change<Laid>; 19] = [
    ("as-it-is", |_| ()),
    ("50908-50909-50909", |laid| renamed(laid, [50908, 50909, 50909])),
    ("50909-50909-50910", |laid| renamed(laid, [50909, 50909, 50910])),
    ("6-50909-50910-50909", |laid| renamed(laid, [50909, 50910, 50909])),
    ("6-50909-50908-50909", |laid| renamed(laid, [50909, 50908, 50909])),
    ("6-50908-50908-50909", |laid| renamed(laid, [50908, 50908, 50909])),
    ("6-50909-50910-50910", |laid| renamed(laid, [50909, 50910, 50910])),
    ("7-second-count-0", |laid| laid.put_long(laid.all(50909)[1].entry + 4, 0)),
    ("7-third-count-0", |laid| laid.put_long(laid.all(50909)[2].entry + 4, 0)),
    ("7-third-odd", |laid| laid.put_long(laid.all(50909)[2].entry + 8, 9)),
    ("7-third-past-n", |laid| laid.put_long(laid.all(50909)[2].entry + 4, u32::MAX)),
    ("10-second-type-2", |laid| laid.put_short(laid.all(50909)[1].entry + 2, 2)),
    ("10-third-type-7", |laid| laid.put_short(laid.all(50909)[2].entry + 2, 7)),
    ("14-first", |laid| tile_on(laid, 0)),
    ("14-second-in-its-entry", |laid| tile_on(laid, 1)),
    ("14-third", |laid| tile_on(laid, 2)),
    ("third-over-the-first", |laid| {
        laid.put_long(laid.all(50909)[2].entry + 8, laid.all(50909)[0].value as u32);
    }),
    ("minor-revision-1", |laid| laid.put_short(laid.spot(34735).value + 4, 1)),
    ("15-minor-revision-2", |laid| laid.put_short(laid.spot(34735).value + 4, 2)),
];

/// The file of tiles with a mask in two strips.
fn mask(order: Order) -> Plan {
    let mut plan = Plan::mask_of(tiles(order));
    plan.set(Tag::shorts(278, &[10]));
    plan.set_pieces(Family::Strips, &[7, 5], (true, true));
    plan
}

/// Puts the first strip of the mask on a byte.
fn strip_on(laid: &mut Laid, byte: usize) {
    laid.put_long(laid.spot(273).value, byte as u32);
    laid.put_long(laid.spot(279).value, 1);
}

/// Changes of the mask's tags.
const MASKED: [Change<Plan>; 16] = [
    ("as-it-is", |_| ()),
    ("in-tiles", |plan| {
        plan.remove(278);
        [273, 279].iter().for_each(|&tag| plan.remove(tag));
        [322, 323].iter().for_each(|&tag| plan.set(Tag::shorts(tag, &[32])));
        plan.set_pieces(Family::Tiles, &[3, 3], (true, false));
    }),
    ("sizes-LONG", |plan| {
        plan.set(Tag::longs(256, &[40]));
        plan.set(Tag::longs(257, &[20]));
    }),
    ("50909-three-times", |plan| {
        [&b"<first sheet/>"[..], b"two", b"3"]
            .iter()
            .for_each(|text| plan.add(Tag::bytes(50909, 2, text)));
    }),
    ("no-keys-in-34735", |plan| plan.set(Tag::bytes(34735, 7, b"no keys"))),
    ("28-6-284-twice", |plan| (0..2).for_each(|_| plan.add(Tag::shorts(284, &[1])))),
    ("28-7-34735-count-0", |plan| plan.set(Tag::raw(34735, 3, 0, [0; 4]))),
    ("28-27-both-by-324", |plan| plan.set(Tag::longs(324, &[8, 8]))),
    ("28-27-neither", |plan| Family::Strips.tags().for_each(|tag| plan.remove(tag))),
    ("28-9-254-absent", |plan| plan.remove(254)),
    ("28-10-254-SHORT", |plan| plan.set(Tag::shorts(254, &[4]))),
    ("28-11-254-is-5", |plan| plan.set(Tag::longs(254, &[5]))),
    ("28-11-256-is-39", |plan| plan.set(Tag::shorts(256, &[39]))),
    ("28-11-257-is-21", |plan| plan.set(Tag::shorts(257, &[21]))),
    ("28-12-258-twice-1", |plan| plan.set(Tag::shorts(258, &[1, 1]))),
    ("28-12-273-three", |plan| plan.set_pieces(Family::Strips, &[7, 5, 3], (true, true))),
];

/// Changes of single bytes of that file.
const MASKED_BYTES: [Change<Laid>; 18] = [
    ("no-mask", |laid| laid.put_long(laid.pointer(), 0)),
    ("28-4-odd", |laid| laid.put_long(laid.pointer(), laid.directory as u32 + 1)),
    ("28-4-below-8", |laid| laid.put_long(laid.pointer(), 6)),
    ("28-4-past-n", |laid| laid.put_long(laid.pointer(), laid.n() as u32 / 2 * 2)),
    ("28-5-no-entry", |laid| laid.put_short(laid.directory, 0)),
    ("28-8-the-image", |laid| laid.put_long(laid.pointer(), laid.its_image().directory as u32)),
    ("28-8-itself", |laid| laid.put_long(laid.next(), laid.directory as u32)),
    ("28-13-past-n", |laid| laid.put_long(laid.spot(273).value + 4, laid.n() as u32 - 4)),
    ("28-14-tile-on-the-directory", |laid| {
        let (offsets, _) = laid.its_image().places();
        laid.put_long(offsets.value, laid.next() as u32 + 3);
    }),
    ("28-14-tile-on-279", |laid| {
        let (offsets, _) = laid.its_image().places();
        laid.put_long(offsets.value + 20, laid.spot(279).value as u32);
    }),
    ("28-14-own-directory", |laid| strip_on(laid, laid.directory)),
    ("28-14-own-273", |laid| strip_on(laid, laid.spot(273).value + 7)),
    ("28-14-directory-of-the-image", |laid| strip_on(laid, laid.its_image().next() + 3)),
    ("28-14-34735-of-the-image", |laid| strip_on(laid, laid.its_image().spot(34735).value)),
    ("on-the-picture", |laid| strip_on(laid, laid.its_image().pieces[0].0 as usize)),
    ("7-of-the-image", |laid| laid.put_long(laid.its_image().spot(256).entry + 4, 0)),
    ("15-minor-revision-2", |laid| laid.put_short(laid.its_image().spot(34735).value + 4, 2)),
    ("28-9-minor-revision-1", |laid| {
        laid.put_short(laid.its_image().spot(34735).value + 4, 1);
        laid.put_short(laid.spot(254).entry, 253);
    }),
];

/// A file and its changes, those of its tags and those of single bytes, in both
/// byte orders.
fn changed(
    word: &str,
    file: fn(Order) -> Plan,
    of_tags: &[Change<Plan>],
    of_bytes: &[Change<Laid>],
) -> BTreeMap<String, Vec<u8>> {
    let mut files: BTreeMap<String, Vec<u8>> = BTreeMap::new();
    for (order, mark) in [(Order::Little, "II"), (Order::Big, "MM")] {
        for (name, change) in of_tags {
            let mut plan = file(order);
            change(&mut plan);
            files.insert(format!("{word}-{name}-{mark}"), plan.lay().bytes);
        }
        for (name, change) in of_bytes {
            let mut laid = file(order).lay();
            change(&mut laid);
            files.insert(format!("{word}-{name}-{mark}"), laid.bytes);
        }
    }
    files
}

/// The smallest file of each clause, side and byte order.
fn clauses(seed: u64) -> BTreeMap<String, Vec<u8>> {
    let mut best: BTreeMap<String, Vec<u8>> = BTreeMap::new();
    for case in targeted(seed) {
        if !matches!(case.call, Call::Judge) || case.file.len() > LARGEST {
            continue;
        }
        let order = if case.file.starts_with(b"MM") { "MM" } else { "II" };
        let side = if case.broken { "broken" } else { "kept" };
        let clause: String =
            case.clause.chars().map(|c| if c.is_ascii_alphanumeric() { c } else { '-' }).collect();
        let name = format!("{clause}-{side}-{order}");
        match best.get(&name) {
            Some(other) if other.len() <= case.file.len() => {}
            _ => {
                best.insert(name, case.file);
            }
        }
    }
    best
}

/// Accepted files of the random mix, for their variety.
fn mixed(seed: u64) -> BTreeMap<String, Vec<u8>> {
    let files = random(seed, 200).into_iter().enumerate();
    let small = files.filter(|(_, sample)| !sample.damaged && sample.file.len() <= LARGEST);
    small.take(40).map(|(number, sample)| (format!("valid-{number:04}"), sample.file)).collect()
}

/// Files of other producers.
fn real(folder: &Path) -> BTreeMap<String, Vec<u8>> {
    let mut files = BTreeMap::new();
    for entry in std::fs::read_dir(folder).into_iter().flatten().flatten() {
        let name = entry.file_name().to_string_lossy().replace('.', "-");
        files.insert(format!("real-{name}"), std::fs::read(entry.path()).expect("a file"));
    }
    files
}

/// What the program prints for one file.
fn lines(name: &str, file: &[u8]) -> String {
    let judged = judge(file);
    let mut text =
        format!("{name} verdict {} place {}\n", judged.verdict.number, judged.verdict.place);
    if judged.verdict.number == 0 {
        let mut rows = [Row::default(); 256];
        let (_, keys) = key_rows(file, &mut rows);
        let _ = writeln!(text, "keys {keys}");
        for row in &rows[..keys as usize] {
            let _ = writeln!(text, "{row}");
        }
    }
    text
}

fn write(folder: &Path, files: &BTreeMap<String, Vec<u8>>) -> std::io::Result<()> {
    let data = folder.join("data");
    let _ = std::fs::remove_dir_all(&data);
    std::fs::create_dir_all(&data)?;
    let (mut names, mut text) = (String::new(), String::new());
    for (name, file) in files {
        std::fs::write(data.join(name), file)?;
        let _ = writeln!(names, "{name}");
        text += &lines(name, file);
    }
    std::fs::write(folder.join("args"), names)?;
    std::fs::write(folder.join("stdout"), text)
}
