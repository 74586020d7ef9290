//! The variety of accepted files: labels that the coverage table counts, so
//! that the generator cannot quietly stop making a kind of file.

use super::directory::Entry;
use super::examine::{examine, Accepted, Picture};
use super::ground::Georeference;
use super::keys::number_of;
use super::number::Order;
use super::pieces::share;
use super::tables::*;
use super::tags::{needed, one};
use std::ops::Range;

/// Every label an accepted file can carry.
pub const VARIETIES: &[&str] = &[
    "little-endian",
    "big-endian",
    "256 SHORT",
    "256 LONG",
    "257 SHORT",
    "257 LONG",
    "273 SHORT",
    "273 LONG",
    "278 SHORT",
    "278 LONG",
    "279 SHORT",
    "279 LONG",
    "322 SHORT",
    "322 LONG",
    "323 SHORT",
    "323 LONG",
    "325 SHORT",
    "325 LONG",
    "258 in its entry",
    "258 at an offset",
    "273 in its entry",
    "273 at an offset",
    "279 in its entry",
    "279 at an offset",
    "324 in its entry",
    "324 at an offset",
    "325 in its entry",
    "325 at an offset",
    "34737 in its entry",
    "34737 at an offset",
    "34737 absent",
    "34736 at an offset",
    "34736 absent",
    "50909 in its entry",
    "50909 at an offset",
    "50909 absent",
    "50909 twice",
    "50909 more than twice",
    "50909 in all entries that are left",
    "50909 in its entry and at an offset",
    "a later 50909 in its entry",
    "a later 50909 at an offset",
    "50908 before and 50910 behind several 50909",
    "texts share bytes",
    "a later text ends at n",
    "strip ends where a later text starts",
    "strip starts where a later text ends",
    "tile ends where a later text starts",
    "tile starts where a later text ends",
    "284 present",
    "284 absent",
    "unknown tag",
    "unknown type",
    "unknown type with count 0",
    "directory before all values",
    "directory after all values",
    "directory among the values",
    "directory ends at n",
    "a value ends at n",
    "values share bytes",
    "a value over the directory",
    "one strip",
    "many strips",
    "strips overlap",
    "strip at an odd offset",
    "strip ends at n",
    "strip ends where the list starts",
    "strip starts where the list ends",
    "strip over an unknown tag's value",
    "one tile",
    "many tiles",
    "tiles overlap",
    "tile at an odd offset",
    "tile ends at n",
    "tile ends where the list starts",
    "tile starts where the list ends",
    "tile over an unknown tag's value",
    "many tiles across",
    "many tiles down",
    "many tiles across and down",
    "tiles end at the edge",
    "tiles reach past the edge",
    "tile of the largest width",
    "tile of the largest length",
    "bits 1",
    "bits 8",
    "bits 16",
    "bits 32",
    "one sample",
    "many samples",
    "compression 1",
    "compression 2",
    "compression 32773",
    "PixelIsArea",
    "PixelIsPoint",
    "projected",
    "geographic",
    "key SHORT at 0",
    "key DOUBLE at 34736",
    "key ASCII at 34737",
    "key other at 0",
    "key other at 34735",
    "key other at 34736",
    "key other at 34737",
    "empty citation",
    "citation in a directory entry",
    "array over the key header or entries",
    "array over minor revision 1",
    "key values share elements",
    "key values out of order",
    "key directory with spare numbers",
    "minor revision 0",
    "minor revision 1",
    "key 0",
    "key 65535",
    "K 256",
    "scaled",
    "affine",
    "affine with rotation",
    "georeference with -0",
    "corner -0",
    "no mask",
    "strips and a mask in strips",
    "strips and a mask in tiles",
    "tiles and a mask in strips",
    "tiles and a mask in tiles",
    "mask in one piece",
    "mask in many pieces",
    "mask with compression 1",
    "mask with compression 2",
    "mask with compression 32773",
    "mask with 284",
    "mask without 284",
    "mask with an unknown tag",
    "mask with 34735",
    "mask with 50909 twice",
    "mask with more than one metadata tag in the image",
    "mask's size in other types than the image's",
    "mask's directory before the image's",
    "mask's directory behind the image's",
    "mask's directory between pieces of the image",
    "mask's directory before all pieces of the image",
    "mask's directory behind all pieces of the image",
    "mask's directory ends at n",
    "mask's value between pieces of the image",
    "mask's piece between pieces of the image",
    "mask's piece ends at n",
    "mask's piece ends where the image's list starts",
    "mask's piece starts where the image's list ends",
    "mask's piece ends where its own list starts",
    "mask's piece starts where its own list ends",
    "image's piece ends where the mask's list starts",
    "image's piece starts where the mask's list ends",
    "picture and mask share bytes",
    "image and mask share a value",
    "image's value over the mask's directory",
    "a picture over an unknown value of the mask",
];

/// The labels of a file; none for a refused one.
pub fn varieties(file: &[u8]) -> Vec<&'static str> {
    let Ok(accepted) = examine(file, IN_FORCE) else { return Vec::new() };
    let mut labels = Vec::new();
    labels.extend(of_tags(&accepted));
    labels.extend(of_texts(&accepted));
    labels.extend(of_layout(&accepted));
    labels.extend(of_pieces(&accepted));
    labels.extend(of_tiles(&accepted));
    labels.extend(of_picture(&accepted));
    labels.extend(of_keys(&accepted));
    labels.extend(of_key_values(&accepted));
    labels.extend(of_ground(&accepted));
    labels.extend(of_mask(&accepted));
    let mut found: Vec<&'static str> = labels.iter().map(|label| label_of(label)).collect();
    found.sort_unstable();
    found.dedup();
    found
}

fn label_of(label: &str) -> &'static str {
    VARIETIES.iter().find(|known| **known == label).copied().unwrap_or("unregistered variety")
}

/// The labels whose condition holds.
fn chosen(labels: &[(bool, impl ToString)]) -> Vec<String> {
    labels.iter().filter(|(holds, _)| *holds).map(|(_, label)| label.to_string()).collect()
}

fn of_tags(accepted: &Accepted) -> Vec<String> {
    let directory = &accepted.image.directory;
    let mut labels = Vec::new();
    let numbers = TAGS.iter().filter(|row| row.kinds.contains(&SHORT) && row.kinds.contains(&LONG));
    for entry in numbers.filter_map(|row| directory.find(row.tag)) {
        let word = if entry.kind == SHORT { "SHORT" } else { "LONG" };
        labels.push(format!("{} {word}", entry.tag));
    }
    let (offsets, byte_counts) = accepted.image.family.places();
    for tag in [BITS, offsets, byte_counts, CHARACTERS, DOUBLES, METADATA] {
        labels.push(match directory.find(tag) {
            None => format!("{tag} absent"),
            Some(entry) if entry.in_entry() => format!("{tag} in its entry"),
            Some(_) => format!("{tag} at an offset"),
        });
    }
    let unknown = |entry: &&Entry| !TAGS.iter().any(|row| row.tag == entry.tag);
    let planar = directory.find(PLANAR).is_some();
    labels.extend(chosen(&[
        (directory.order == Order::Little, "little-endian"),
        (directory.order == Order::Big, "big-endian"),
        (planar, "284 present"),
        (!planar, "284 absent"),
        (directory.entries.iter().any(|e| unknown(&e)), "unknown tag"),
        (directory.entries.iter().any(|e| e.value().is_none()), "unknown type"),
        (
            directory.entries.iter().any(|e| e.value().is_none() && e.count == 0),
            "unknown type with count 0",
        ),
    ]));
    labels
}

/// How several metadata texts stand; nothing for a file of one or none.
fn of_texts(accepted: &Accepted) -> Vec<String> {
    let (directory, word) = (&accepted.image.directory, accepted.image.family.word());
    let entries: Vec<&Entry> = directory.all(METADATA).collect();
    if entries.len() < 2 {
        return Vec::new();
    }
    let short = entries.iter().filter(|entry| entry.in_entry()).count();
    let far = |entries: &[&Entry]| -> Vec<Range<u64>> {
        let far = entries.iter().filter(|entry| !entry.in_entry());
        far.filter_map(|entry| entry.value()).collect()
    };
    let later = far(&entries[1..]);
    let beside = |touch: &dyn Fn(&Range<u64>, &Range<u64>) -> bool| {
        accepted.image.pieces.list.iter().any(|piece| later.iter().any(|text| touch(piece, text)))
    };
    let has = |tag: u16| directory.find(tag).is_some();
    let all = directory.entries.len() as u64 == MOST_ENTRIES;
    let mut labels = chosen(&[
        (entries.len() == 2, "50909 twice"),
        (entries.len() > 2, "50909 more than twice"),
        (all, "50909 in all entries that are left"),
        (0 < short && short < entries.len(), "50909 in its entry and at an offset"),
        (entries[1..].iter().any(|entry| entry.in_entry()), "a later 50909 in its entry"),
        (!later.is_empty(), "a later 50909 at an offset"),
        (has(50908) && has(50910), "50908 before and 50910 behind several 50909"),
        (pairwise_share(&far(&entries)), "texts share bytes"),
        (later.iter().any(|text| text.end == directory.n()), "a later text ends at n"),
    ]);
    labels.extend(chosen(&[
        (
            beside(&|piece, text| piece.end == text.start),
            format!("{word} ends where a later text starts"),
        ),
        (
            beside(&|piece, text| text.end == piece.start),
            format!("{word} starts where a later text ends"),
        ),
    ]));
    labels
}

/// The values outside their entries, of table tags or of the others.
fn values(picture: &Picture, in_table: bool) -> Vec<Range<u64>> {
    let known = |tag: u16| picture.directory.table.iter().any(|row| row.tag == tag);
    let entries = picture.directory.entries.iter();
    let wanted = entries.filter(|e| known(e.tag) == in_table && !e.in_entry());
    wanted.filter_map(Entry::value).collect()
}

fn pairwise_share(ranges: &[Range<u64>]) -> bool {
    let later = |at: usize| ranges[at + 1..].iter().any(|other| share(&ranges[at], other));
    (0..ranges.len()).any(later)
}

fn of_layout(accepted: &Accepted) -> Vec<String> {
    let (directory, n) = (accepted.image.directory.range(), accepted.image.directory.n());
    let values = values(&accepted.image, true);
    let before = values.iter().all(|value| directory.end <= value.start);
    let after = values.iter().all(|value| value.end <= directory.start);
    chosen(&[
        (before, "directory before all values"),
        (after, "directory after all values"),
        (!before && !after, "directory among the values"),
        (directory.end == n, "directory ends at n"),
        (values.iter().any(|value| value.end == n), "a value ends at n"),
        (pairwise_share(&values), "values share bytes"),
        (values.iter().any(|value| share(value, &directory)), "a value over the directory"),
    ])
}

fn of_pieces(accepted: &Accepted) -> Vec<String> {
    let (word, pieces) = (accepted.image.family.word(), &accepted.image.pieces.list);
    let mut list = values(&accepted.image, true);
    list.push(accepted.image.directory.range());
    let unknown = values(&accepted.image, false);
    let any = |test: &dyn Fn(&Range<u64>) -> bool| pieces.iter().any(test);
    chosen(&[
        (pieces.len() == 1, format!("one {word}")),
        (pieces.len() > 1, format!("many {word}s")),
        (pairwise_share(pieces), format!("{word}s overlap")),
        (any(&|piece| piece.start % 2 == 1), format!("{word} at an odd offset")),
        (any(&|piece| piece.end == accepted.image.directory.n()), format!("{word} ends at n")),
        (
            any(&|piece| list.iter().any(|part| part.start == piece.end)),
            format!("{word} ends where the list starts"),
        ),
        (
            any(&|piece| list.iter().any(|part| part.end == piece.start)),
            format!("{word} starts where the list ends"),
        ),
        (
            any(&|piece| unknown.iter().any(|value| share(piece, value))),
            format!("{word} over an unknown tag's value"),
        ),
    ])
}

/// How the tiles lie over the picture; nothing for one in strips.
fn of_tiles(accepted: &Accepted) -> Vec<String> {
    if accepted.image.family != Family::Tiles {
        return Vec::new();
    }
    let number = |tag: u16| one(&accepted.image.directory, tag);
    let (width, length) = (number(WIDTH), number(LENGTH));
    let (across, down) = (number(TILE_WIDTH), number(TILE_LENGTH));
    let past = width % across != 0 || length % down != 0;
    let largest = u32::MAX - 15;
    chosen(&[
        (width > across, "many tiles across"),
        (length > down, "many tiles down"),
        (width > across && length > down, "many tiles across and down"),
        (!past, "tiles end at the edge"),
        (past, "tiles reach past the edge"),
        (across == largest, "tile of the largest width"),
        (down == largest, "tile of the largest length"),
    ])
}

fn of_picture(accepted: &Accepted) -> Vec<String> {
    let samples = one(&accepted.image.directory, SAMPLES);
    vec![
        format!("bits {}", needed(&accepted.image.directory, BITS)[0]),
        format!("compression {}", one(&accepted.image.directory, COMPRESSION)),
        format!("{} sample{}", if samples == 1 { "one" } else { "many" }, plural(samples)),
    ]
}

fn plural(number: u32) -> &'static str {
    if number == 1 {
        ""
    } else {
        "s"
    }
}

fn of_keys(accepted: &Accepted) -> Vec<String> {
    let keys = &accepted.keys;
    let mut labels: Vec<String> = keys
        .iter()
        .map(|entry| format!("key {} at {}", kind_of(entry.key).word(), entry.location))
        .collect();
    let ascii = |key: u16| kind_of(key) == Kind::Ascii;
    let in_entry = accepted.image.directory.find(CHARACTERS).is_some_and(Entry::in_entry);
    let numbers = accepted.runs.directory.len() / 2;
    labels.extend(chosen(&[
        (number_of(keys, RASTER) == Some(1), "PixelIsArea"),
        (number_of(keys, RASTER) == Some(2), "PixelIsPoint"),
        (number_of(keys, MODEL) == Some(1), "projected"),
        (number_of(keys, MODEL) == Some(2), "geographic"),
        (keys.iter().any(|e| ascii(e.key) && e.count == 1), "empty citation"),
        (in_entry && keys.iter().any(|e| ascii(e.key)), "citation in a directory entry"),
        (keys.iter().any(|e| e.key == 0), "key 0"),
        (keys.iter().any(|e| e.key == 65535), "key 65535"),
        (keys.len() == 256, "K 256"),
        (numbers > 4 + 4 * keys.len(), "key directory with spare numbers"),
        (accepted.minor == 0, "minor revision 0"),
        (accepted.minor == 1, "minor revision 1"),
    ]));
    labels
}

fn of_key_values(accepted: &Accepted) -> Vec<String> {
    let keys = &accepted.keys;
    let header = 4 + 4 * keys.len() as u64;
    let (mut shared, mut unordered) = (false, false);
    let (mut over_header, mut over_minor) = (false, false);
    for location in [KEY_DIRECTORY, DOUBLES, CHARACTERS] {
        let held = keys.iter().filter(|entry| entry.location == location);
        let ranges: Vec<Range<u64>> =
            held.map(|e| u64::from(e.index)..u64::from(e.index) + u64::from(e.count)).collect();
        shared |= pairwise_share(&ranges);
        unordered |= ranges.windows(2).any(|pair| pair[1].start < pair[0].start);
        if location == KEY_DIRECTORY {
            over_header = ranges.iter().any(|r| r.start < header);
            over_minor = ranges.iter().any(|r| r.contains(&2));
        }
    }
    chosen(&[
        (shared, "key values share elements"),
        (unordered, "key values out of order"),
        (over_header, "array over the key header or entries"),
        (over_minor && accepted.minor == 1, "array over minor revision 1"),
    ])
}

fn of_ground(accepted: &Accepted) -> Vec<String> {
    let negative_zero = |double: &f64| *double == 0.0 && double.is_sign_negative();
    let (affine, six) = match accepted.georeference {
        Georeference::Scaled(six) => (false, six),
        Georeference::Affine(six) => (true, six),
    };
    chosen(&[
        (!affine, "scaled"),
        (affine, "affine"),
        (affine && (six[1] != 0.0 || six[3] != 0.0), "affine with rotation"),
        (six.iter().any(negative_zero), "georeference with -0"),
        (accepted.corners.iter().any(negative_zero), "corner -0"),
    ])
}

/// How a mask lies beside its image.
fn of_mask(accepted: &Accepted) -> Vec<String> {
    let image = &accepted.image;
    let Some(mask) = &accepted.mask else { return vec!["no mask".to_string()] };
    let words = [image.family.word(), mask.family.word()];
    let has = |tag: u16| mask.directory.all(tag).count();
    let kinds = |tag: u16| [image, mask].map(|of| of.directory.find(tag).map(|entry| entry.kind));
    let table = |tag: u16| mask.directory.table.iter().any(|row| row.tag == tag);
    let mut labels = chosen(&[
        (true, format!("{}s and a mask in {}s", words[0], words[1])),
        (true, format!("mask with compression {}", one(&mask.directory, COMPRESSION))),
    ]);
    labels.extend(chosen(&[
        (mask.pieces.list.len() == 1, "mask in one piece"),
        (mask.pieces.list.len() > 1, "mask in many pieces"),
        (has(PLANAR) == 1, "mask with 284"),
        (has(PLANAR) == 0, "mask without 284"),
        (mask.directory.entries.iter().any(|entry| !table(entry.tag)), "mask with an unknown tag"),
        (has(KEY_DIRECTORY) == 1, "mask with 34735"),
        (has(METADATA) > 1, "mask with 50909 twice"),
        (
            image.directory.all(METADATA).count() > 1,
            "mask with more than one metadata tag in the image",
        ),
        (
            [WIDTH, LENGTH].iter().any(|&tag| kinds(tag)[0] != kinds(tag)[1]),
            "mask's size in other types than the image's",
        ),
    ]));
    labels.extend(of_layout_of_mask(image, mask));
    labels
}

fn of_layout_of_mask(image: &Picture, mask: &Picture) -> Vec<String> {
    let n = image.directory.n();
    let [(its, of_image), (own, of_mask)] =
        [image, mask].map(|of| (of.directory.range(), values(of, true)));
    let its_list: Vec<&Range<u64>> = of_image.iter().chain([&its]).collect();
    let own_list: Vec<&Range<u64>> = of_mask.iter().chain([&own]).collect();
    let (pieces, masks) = (&image.pieces.list, &mask.pieces.list);
    let between = |part: &Range<u64>| {
        pieces.iter().any(|piece| piece.end <= part.start)
            && pieces.iter().any(|piece| part.end <= piece.start)
    };
    let ends = |of: &[Range<u64>], list: &[&Range<u64>]| {
        of.iter().any(|piece| list.iter().any(|part| part.start == piece.end))
    };
    let starts = |of: &[Range<u64>], list: &[&Range<u64>]| {
        of.iter().any(|piece| list.iter().any(|part| part.end == piece.start))
    };
    let meet = |one: &[Range<u64>], other: &[Range<u64>]| {
        one.iter().any(|part| other.iter().any(|of| share(part, of)))
    };
    let unknown = values(mask, false);
    chosen(&[
        (own.start < its.start, "mask's directory before the image's"),
        (its.start < own.start, "mask's directory behind the image's"),
        (between(&own), "mask's directory between pieces of the image"),
        (
            pieces.iter().all(|piece| own.end <= piece.start),
            "mask's directory before all pieces of the image",
        ),
        (
            pieces.iter().all(|piece| piece.end <= own.start),
            "mask's directory behind all pieces of the image",
        ),
        (own.end == n, "mask's directory ends at n"),
        (of_mask.iter().any(between), "mask's value between pieces of the image"),
        (masks.iter().any(between), "mask's piece between pieces of the image"),
        (masks.iter().any(|piece| piece.end == n), "mask's piece ends at n"),
        (ends(masks, &its_list), "mask's piece ends where the image's list starts"),
        (starts(masks, &its_list), "mask's piece starts where the image's list ends"),
        (ends(masks, &own_list), "mask's piece ends where its own list starts"),
        (starts(masks, &own_list), "mask's piece starts where its own list ends"),
        (ends(pieces, &own_list), "image's piece ends where the mask's list starts"),
        (starts(pieces, &own_list), "image's piece starts where the mask's list ends"),
        (meet(pieces, masks), "picture and mask share bytes"),
        (meet(&of_image, &of_mask), "image and mask share a value"),
        (meet(&of_image, std::slice::from_ref(&own)), "image's value over the mask's directory"),
        (
            meet(pieces, &unknown) || meet(masks, &unknown),
            "a picture over an unknown value of the mask",
        ),
    ])
}
