//! Random files that keep every rule, of as much variety as the document lets
//! stand.

use super::keyplan::{Held, Keys};
use super::plan::{Laid, Part, Plan, Sheet, Spot, Tag, Value};
use super::prng::Random;
use crate::reader::tables::{Allowed, Family, Kind, KEYS};
use crate::reader::Order;

/// Tags outside the table that a file may carry.
const UNKNOWN_TAGS: [u16; 16] =
    [0, 1, 254, 255, 260, 266, 270, 282, 305, 321, 326, 33549, 34738, 50908, 65000, 65535];

/// Key numbers outside the 45 known ones, their neighbours among them.
const UNKNOWN_KEYS: [u16; 14] =
    [0, 1, 1023, 1027, 2047, 2062, 3071, 3096, 4095, 4100, 32767, 60000, 65534, 65535];

/// A laid out file of this minor revision that keeps every rule.
pub fn file(random: &mut Random, minor: u16) -> Laid {
    let mut laid = plan(random, minor).lay();
    if random.chance(25) {
        share_values(&mut laid, random);
    }
    laid
}

/// The same with more than one metadata tag.
pub fn mosaic(random: &mut Random, minor: u16) -> Laid {
    let mut plan = plan(random, minor);
    texts(&mut plan, random);
    let mut laid = plan.lay();
    if random.chance(25) {
        share_values(&mut laid, random);
    }
    if random.chance(25) {
        share_texts(&mut laid);
    }
    laid
}

/// The same with a mask, and some with more than one metadata tag. What is asked of
/// it as of a sheet is the mask's.
pub fn masked(random: &mut Random, minor: u16) -> Laid {
    let mut image = plan(random, minor);
    if random.chance(20) {
        texts(&mut image, random);
    }
    let mut plan = mask(image, random);
    if random.chance(50) {
        plan.shuffle = Some(random.draw());
    }
    if random.chance(40) {
        place_mask(&mut plan, random);
    }
    let mut laid = plan.lay();
    if random.chance(25) {
        let sheet = laid.sheet.clone();
        laid = laid.turned();
        share_values(&mut laid, random);
        laid = Laid { image: Some(laid.sheet), sheet, ..laid };
    }
    if random.chance(40) {
        share_with_image(&mut laid, random);
    }
    laid
}

/// A plan that keeps every rule.
fn plan(random: &mut Random, minor: u16) -> Plan {
    let mut plan = Plan::new(random.pick(&[Order::Little, Order::Big]));
    plan.fill = random.draw();
    plan.dirty = random.chance(70);
    picture(&mut plan, random);
    pieces(&mut plan, random);
    ground(&mut plan, random);
    let keys = keys(random).encode().of_minor(minor);
    plan.set_keys(&keys);
    if random.chance(50) {
        let count = random.pick(&[1, 2, 3, 4, 5, 6, 17, 40]);
        plan.set(Tag::bytes(50909, 1, &random.bytes(count)));
    }
    unknown_tags(&mut plan, random);
    arrange(&mut plan, random);
    plan
}

/// Two metadata tags or more, seldom as many as a directory has room for;
/// their neighbours among the tags may stand beside them.
fn texts(plan: &mut Plan, random: &mut Random) {
    plan.remove(50909);
    for tag in [50908, 50910] {
        if random.chance(20) {
            plan.set(Tag::bytes(tag, random.pick(&[1, 2, 7]), &random.bytes(9)));
        }
    }
    let room = 1_024 - plan.tags.len();
    let count = if random.chance(1) { room } else { random.pick(&[2, 2, 2, 3, 3, 3, 4, 5, 9, 30]) };
    let sizes = random.pick(&[&[1, 2, 3, 4][..], &[5, 6, 17, 40], &[1, 4, 5, 6, 23]]);
    for _ in 0..count {
        let size = random.pick(sizes);
        plan.add(Tag::bytes(50909, 1, &random.bytes(size)));
    }
}

/// Bits, compression, photometric, samples and planar.
fn picture(plan: &mut Plan, random: &mut Random) {
    let packed = random.chance(30);
    let samples = if packed { 1 } else { random.pick(&[1, 1, 1, 2, 3, 4, 8]) };
    let bits = if packed { 1 } else { random.pick(&[1, 8, 8, 16, 32]) };
    let compression = if packed { random.pick(&[2, 32773]) } else { 1 };
    plan.set(Tag::shorts(258, &vec![bits; samples]));
    plan.set(Tag::shorts(259, &[compression]));
    plan.set(Tag::shorts(262, &[random.below(4) as u16]));
    plan.set(Tag::shorts(277, &[samples as u16]));
    if random.chance(50) {
        plan.set(Tag::shorts(284, &[1]));
    }
}

/// A number as SHORT or LONG, as its size and chance decide.
fn number(tag: u16, number: u32, random: &mut Random) -> Tag {
    Tag::numbers(tag, number > 65_535 || random.chance(50), &[number])
}

/// Width, length, the size of a piece and the pieces themselves.
fn pieces(plan: &mut Plan, random: &mut Random) {
    let family = random.pick(&[Family::Strips, Family::Tiles]);
    let count = match family {
        Family::Strips => strips(plan, random),
        Family::Tiles => tiles(plan, random),
    };
    let counts: Vec<u32> = (0..count).map(|_| random.within(1, 20) as u32).collect();
    let narrow_offsets = family == Family::Strips && random.chance(50);
    plan.set_pieces(family, &counts, (!narrow_offsets, random.chance(50)));
}

/// A whole that is cut into `count` parts, and the size of a part: one of
/// `sizes`. Neither is above 1,000,000 where there is more than one part.
fn cut(count: u32, sizes: &[u32], random: &mut Random) -> (u32, u32) {
    let fits = |size: &&u32| count == 1 || **size <= 65_536;
    let fitting: Vec<u32> = sizes.iter().filter(fits).copied().collect();
    let size = random.pick(&fitting);
    let drawn = random.within(1, u64::from(size)) as u32;
    let last = random.pick(&[1, size, drawn]);
    let whole = (size.min(1_000_000) * (count - 1)).saturating_add(last).min(1_000_000);
    (whole, size)
}

/// Width, length and rows per strip; the number of strips.
fn strips(plan: &mut Plan, random: &mut Random) -> u32 {
    let width = random.pick(&[1, 2, 4, 9, 640, 65_535, 65_536, 1_000_000]);
    let count = random.pick(&[1, 1, 1, 2, 3, 4, 7]);
    let sizes = [1, 2, 3, 8, 1000, 65_536, 1_000_000, u32::MAX];
    let (length, rows) = cut(count, &sizes, random);
    plan.set(number(256, width, random));
    plan.set(number(257, length, random));
    plan.set(number(278, rows, random));
    count
}

/// Width, length and those of a tile; the number of tiles.
fn tiles(plan: &mut Plan, random: &mut Random) -> u32 {
    let (across, down) = random.pick(&[(1, 1), (1, 1), (2, 1), (1, 2), (3, 1), (2, 2), (3, 2)]);
    let sizes = [16, 16, 32, 48, 256, 1008, 65_520, 65_536, 1_000_000, u32::MAX - 15];
    let (width, of_width) = cut(across, &sizes, random);
    let (length, of_length) = cut(down, &sizes, random);
    plan.set(number(256, width, random));
    plan.set(number(257, length, random));
    plan.set(number(322, of_width, random));
    plan.set(number(323, of_length, random));
    across * down
}

/// The plan of a mask of this image.
fn mask(image: Plan, random: &mut Random) -> Plan {
    let (width, length) = (one(&image, 256), one(&image, 257));
    let mut plan = Plan::mask_of(image);
    plan.set(number(256, width, random));
    plan.set(number(257, length, random));
    plan.set(Tag::shorts(259, &[random.pick(&[1, 2, 32773])]));
    if random.chance(50) {
        plan.set(Tag::shorts(284, &[1]));
    }
    let family = random.pick(&[Family::Strips, Family::Tiles]);
    let count = match family {
        Family::Strips => {
            let rows = length.div_ceil(random.pick(&[1, 1, 2, 3, 5]));
            plan.set(number(278, random.pick(&[rows, rows, length, u32::MAX]), random));
            length.div_ceil(one(&plan, 278))
        }
        Family::Tiles => {
            for (tag, whole) in [(322, width), (323, length)] {
                let part = whole.div_ceil(random.pick(&[1, 1, 2, 3])).next_multiple_of(16);
                plan.set(number(tag, random.pick(&[part, part, u32::MAX - 15]), random));
            }
            width.div_ceil(one(&plan, 322)) * length.div_ceil(one(&plan, 323))
        }
    };
    let counts: Vec<u32> = (0..count).map(|_| random.within(1, 20) as u32).collect();
    let narrow_offsets = family == Family::Strips && random.chance(50);
    plan.set_pieces(family, &counts, (!narrow_offsets, random.chance(50)));
    tags_of_images(&mut plan, random);
    unknown_tags(&mut plan, random);
    // which is outside an image's table
    plan.set(Tag::longs(254, &[4]));
    plan
}

/// Tags that an image has in its table, of any type: in a mask they are outside.
fn tags_of_images(plan: &mut Plan, random: &mut Random) {
    for tag in [33550, 33922, 34264, 34735, 34736, 34737] {
        if random.chance(10) {
            let count = random.pick(&[1, 4, 5, 24]);
            plan.set(Tag::bytes(tag, random.pick(&[1, 2, 7]), &random.bytes(count)));
        }
    }
    for _ in 0..random.pick(&[0, 0, 0, 1, 2, 3]) {
        let count = random.pick(&[1, 4, 5, 24]);
        plan.add(Tag::bytes(50909, random.pick(&[1, 2, 7]), &random.bytes(count)));
    }
}

/// Puts the mask's directory before all, behind all, or between pieces.
fn place_mask(plan: &mut Plan, random: &mut Random) {
    let pieces = plan.its_image().pieces.len();
    match random.below(4) {
        0 => plan.first = vec![Part::Directory],
        1 => plan.last = vec![Part::Directory],
        2 => plan.last = vec![Part::Directory, Part::ImagePiece(pieces - 1)],
        _ => plan.first = vec![Part::ImagePiece(pieces - 1), Part::Directory],
    }
}

/// Lets the two pictures share bytes, or the two directories values, or a picture
/// lie over values outside the mask's table.
fn share_with_image(laid: &mut Laid, random: &mut Random) {
    let image = laid.its_image();
    let text = image.all(50909).into_iter().find(|text| text.size > 4);
    match (random.below(4), text) {
        // a text of the image over the mask's directory or a value of it
        (0, Some(text)) if text.size <= laid.next() + 4 - laid.directory => {
            laid.put_long(text.entry + 8, laid.directory as u32);
        }
        (1, Some(text)) if text.size <= laid.places().0.size => {
            laid.put_long(text.entry + 8, laid.places().0.value as u32);
        }
        (2, _) => {
            let spots = laid.spots.clone();
            under_piece(laid, spots.iter().filter(|spot| spot.tag > 325), image.pieces[0].0);
        }
        _ => share_pictures(laid, &image),
    }
}

/// Puts the first piece of the mask on the image's first, as far as it reaches;
/// where both pictures have pieces of one family and number, all of them, by the
/// same entries.
fn share_pictures(laid: &mut Laid, image: &Sheet) {
    let (own, its) = (laid.places(), image.places());
    if laid.tiled() == image.tiled() && laid.pieces.len() == image.pieces.len() {
        for (own, its) in [(own.0, its.0), (own.1, its.1)] {
            laid.bytes.copy_within(its.entry..its.entry + 12, own.entry);
        }
        return;
    }
    let pieces = laid.pieces.len();
    let count = laid.pieces[0].1.min(image.pieces[0].1);
    laid.put_number(own.0.value, own.0.size == 4 * pieces, 0, image.pieces[0].0);
    laid.put_number(own.1.value, own.1.size == 4 * pieces, 0, count);
}

/// The one number of a planned tag.
fn one(plan: &Plan, tag: u16) -> u32 {
    match &plan.tags.iter().find(|known| known.tag == tag).expect("a planned tag").value {
        Value::Shorts(numbers) => u32::from(numbers[0]),
        Value::Longs(numbers) => numbers[0],
        other => panic!("numbers of {other:?}"),
    }
}

/// A finite double of moderate size, both zeros among them.
fn double(random: &mut Random) -> f64 {
    let whole = random.below(20_000_000) as f64 - 10_000_000.0;
    match random.below(8) {
        0 => 0.0,
        1 => -0.0,
        2 => whole,
        3 => whole / 2.0,
        4 => f64::from_bits(random.below(1 << 52)),
        _ => whole * (random.below(1 << 53) as f64 / 9_007_199_254_740_992.0),
    }
}

/// A finite double of any size, for places that only ask for finiteness.
fn unused(random: &mut Random) -> f64 {
    let drawn = f64::from_bits(random.draw());
    let choices = [0.0, -0.0, f64::MAX, -f64::MAX, 5e-324, drawn];
    let chosen = random.pick(&choices);
    if chosen.is_finite() {
        chosen
    } else {
        1.0
    }
}

/// Scale with tiepoint, or matrix.
fn ground(plan: &mut Plan, random: &mut Random) {
    if random.chance(60) {
        let scale = |random: &mut Random| match random.below(4) {
            0 => 0.5,
            1 => 5e-324,
            2 => f64::MIN_POSITIVE,
            _ => (1 + random.below(1 << 40)) as f64 / 1_048_576.0,
        };
        let three = [scale(random), scale(random), unused(random)];
        plan.set(Tag::doubles(33550, &three));
        let mut six: Vec<f64> = (0..6).map(|_| double(random)).collect();
        (six[2], six[5]) = (unused(random), unused(random));
        plan.set(Tag::doubles(33922, &six));
        return;
    }
    let mut matrix: Vec<f64> = (0..16).map(|_| double(random)).collect();
    for element in [3, 7, 9, 10, 11, 12] {
        matrix[element - 1] = unused(random);
    }
    if matrix[0] * matrix[5] == matrix[1] * matrix[4] {
        (matrix[0], matrix[1]) = (0.5, random.pick(&[0.0, -0.0]));
        (matrix[4], matrix[5]) = (random.pick(&[0.0, -0.0]), -0.5);
    }
    let zero = |random: &mut Random| random.pick(&[0.0, -0.0]);
    let last = [zero(random), zero(random), zero(random), 1.0];
    matrix[12..].copy_from_slice(&last);
    plan.set(Tag::doubles(34264, &matrix));
}

/// Needed keys, some known ones and some unknown ones.
fn keys(random: &mut Random) -> Keys {
    let mut keys = Keys::default();
    let geographic = random.chance(30);
    keys.set(1024, Held::Number(if geographic { 2 } else { 1 }));
    keys.set(1025, Held::Number(random.within(1, 2) as u16));
    let zone = random.pick(&[32601, 32633, 32661, 32701, 32733, 32761]);
    let (system, code) = if geographic { (2048, 4326) } else { (3072, zone) };
    keys.set(system, Held::Number(code));
    for _ in 0..random.below(6) {
        let row = random.pick(&KEYS);
        if row.key == 1024 || row.key == 1025 {
            continue;
        }
        keys.set(row.key, known(row.kind, row.allowed, random));
    }
    for _ in 0..random.below(5) {
        let key = random.pick(&UNKNOWN_KEYS);
        keys.set(key, other(random));
    }
    keys.share = random.chance(40);
    keys.placing = if random.chance(50) { Some(random.draw()) } else { None };
    if random.chance(30) {
        let spare = random.pick(&[1, 2, 3]);
        keys.spare.0 = (0..spare).map(|_| random.draw() as u16).collect();
        keys.spare.1 = (0..spare).map(|_| random.draw()).collect();
        keys.spare.2 = random.bytes(spare);
    }
    if random.chance(15) {
        over_header(&mut keys, random);
    }
    if random.chance(2) {
        fill_up(&mut keys, random);
    }
    keys
}

/// What a known key holds.
fn known(kind: Kind, allowed: Allowed, random: &mut Random) -> Held {
    match kind {
        Kind::Short => {
            let ranges = allowed.ranges();
            let (low, high) = ranges.map_or((0, 65_535), |ranges| random.pick(ranges));
            Held::Number(random.within(u64::from(low), u64::from(high)) as u16)
        }
        Kind::Double => Held::Doubles(vec![random.draw()]),
        _ => {
            let text =
                random.pick(&["|", "a|", "ab|", "a|b|", "WGS 84|", "WGS 84 / UTM zone 33N|"]);
            Held::Text(text.as_bytes().to_vec())
        }
    }
}

/// What a key of kind other holds.
fn other(random: &mut Random) -> Held {
    let count = random.pick(&[1, 2, 3, 5]);
    match random.below(5) {
        0 | 1 => Held::Number(random.draw() as u16),
        2 => Held::Array((0..count).map(|_| random.below(3) as u16).collect()),
        3 => Held::Doubles((0..count).map(|_| random.below(2)).collect()),
        _ => Held::Text((0..count).map(|_| random.pick(b"ab|4")).collect()),
    }
}

/// As many keys as a key directory may have.
fn fill_up(keys: &mut Keys, random: &mut Random) {
    let mut key = 40_000;
    while keys.list.len() < 256 {
        keys.set(key, Held::Number(random.draw() as u16));
        key += 1;
    }
}

/// An array that lies over the header or the entries of the key directory.
fn over_header(keys: &mut Keys, random: &mut Random) {
    let index = random.below(4 + 4 * keys.list.len() as u64) as u16;
    let count = random.within(1, 4) as u16;
    keys.set(60001, Held::Raw(34735, count, index));
}

/// Entries outside the table, of known and of unknown types.
fn unknown_tags(plan: &mut Plan, random: &mut Random) {
    for _ in 0..random.below(4) {
        let tag = random.pick(&UNKNOWN_TAGS);
        let count = random.pick(&[1, 2, 3, 4, 5, 6]);
        let field = [random.draw() as u8, random.draw() as u8, 0xFF, 0xFF];
        plan.set(match random.below(6) {
            0 => Tag::bytes(tag, random.pick(&[1, 2, 6, 7]), &random.bytes(count)),
            1 => Tag::shorts(tag, &vec![random.draw() as u16; count]),
            2 => Tag::longs(tag, &vec![random.draw() as u32; count]),
            3 => Tag::double_bits(tag, &vec![random.draw(); count]),
            4 => Tag::raw(tag, random.pick(&[0, 13, 14, 256, 65_535]), 0, field),
            _ => Tag::raw(tag, random.pick(&[0, 13, 16, 65_535]), random.draw() as u32, field),
        });
    }
}

/// The order of the parts and the free bytes between them.
fn arrange(plan: &mut Plan, random: &mut Random) {
    plan.gap = random.pick(&[(0, 0), (0, 0), (0, 1), (0, 3), (1, 4)]);
    if random.chance(60) {
        plan.shuffle = Some(random.draw());
    }
    match random.below(4) {
        0 => plan.first = vec![Part::Directory],
        1 => plan.last = vec![Part::Directory],
        _ => {}
    }
}

/// Lets pieces overlap, lie over an unknown tag's value, and lets values that
/// may be anything lie over other values or over the directory.
fn share_values(laid: &mut Laid, random: &mut Random) {
    let spots = laid.spots.clone();
    let hosts: Vec<(usize, usize)> = spots
        .iter()
        .filter(|spot| spot.size > 4 && [33922, 34264, 34735].contains(&spot.tag))
        .map(|spot| (spot.value, spot.size))
        .chain([(laid.directory, 2 + 12 * spots.len() + 4)])
        .collect();
    for spot in spots.iter().filter(|s| [34736, 50909].contains(&s.tag) && s.size > 4) {
        let (at, size) = random.pick(&hosts);
        if spot.size <= size {
            laid.put_long(spot.entry + 8, at as u32);
        }
    }
    let piece = laid.pieces[laid.pieces.len() - 1];
    under_piece(laid, spots.iter().filter(|spot| UNKNOWN_TAGS.contains(&spot.tag)), piece.0);
    if random.chance(50) {
        overlap_pieces(laid);
    }
}

/// Lets values start where a piece does, if they may and end in the file.
fn under_piece<'s>(laid: &mut Laid, spots: impl Iterator<Item = &'s Spot>, piece: u32) {
    for spot in spots.filter(|spot| spot.size > 4) {
        if piece.is_multiple_of(2) && piece as usize + spot.size <= laid.n() {
            laid.put_long(spot.entry + 8, piece);
        }
    }
}

/// Lets a metadata text lie in the one before, where it is no longer.
fn share_texts(laid: &mut Laid) {
    let texts = laid.all(50909);
    for pair in texts.windows(2).filter(|pair| 4 < pair[1].size && pair[1].size <= pair[0].size) {
        laid.put_long(pair[1].entry + 8, pair[0].value as u32);
    }
}

/// Gives every piece the offset of the first, as far as its bytes reach.
fn overlap_pieces(laid: &mut Laid) {
    let (first, room) = laid.pieces[0];
    let (offsets, counts) = laid.places();
    let pieces = laid.pieces.len();
    for i in 1..pieces {
        let count = laid.pieces[i].1.min(room);
        laid.put_number(offsets.value, offsets.size == 4 * pieces, i, first);
        laid.put_number(counts.value, counts.size == 4 * pieces, i, count);
    }
}
