//! Random damage: bytes flipped, files cut, fields overwritten with numbers
//! near a boundary. Nothing is said about the verdict; two readers compare.

use super::plan::{Laid, Spot};
use super::prng::Random;
use crate::reader::tables::{Family, BOTH};

/// The bytes of the file after one to three damages.
pub fn damage(mut laid: Laid, random: &mut Random) -> Vec<u8> {
    for _ in 0..random.pick(&[1, 1, 1, 2, 3]) {
        match random.below(13) {
            0 => flip(&mut laid, random),
            1 | 2 => entry_field(&mut laid, random),
            3 | 4 => short_value(&mut laid, random),
            5 => double_value(&mut laid, random),
            6 | 7 => key_field(&mut laid, random),
            8 => piece_field(&mut laid, random),
            9 => swap_entries(&mut laid, random),
            10 => head_field(&mut laid, random),
            11 => family_field(&mut laid, random),
            _ => resize(&mut laid, random),
        }
        if laid.n() < laid.next().max(laid.pointer()) + 4 {
            break;
        }
    }
    laid.bytes
}

/// The bytes of a mosaic after damage, mostly of its metadata tags.
pub fn mosaic(mut laid: Laid, random: &mut Random) -> Vec<u8> {
    if random.chance(70) {
        text_field(&mut laid, random);
        if random.chance(60) {
            return laid.bytes;
        }
    }
    damage(laid, random)
}

/// The bytes of a file with a mask after damage, mostly of the mask.
pub fn masked(mut laid: Laid, random: &mut Random) -> Vec<u8> {
    match random.below(10) {
        0 | 1 => damage(laid.turned(), random),
        2 | 3 => {
            list_field(&mut laid, random);
            laid.bytes
        }
        4 => {
            laid.put_long(laid.pointer(), near(random, laid.n()));
            laid.bytes
        }
        _ => damage(laid, random),
    }
}

/// Brings a piece of the image or of the mask to a byte of the other's part of the
/// list, or just beside it.
fn list_field(laid: &mut Laid, random: &mut Random) {
    let (mask, image) = (laid.sheet.clone(), laid.its_image());
    let (mover, host) = random.pick(&[(&mask, &image), (&image, &mask), (&mask, &mask)]);
    let mut parts = vec![(host.directory, host.next() + 4)];
    let far = host.spots.iter().filter(|spot| spot.size > 4);
    parts.extend(far.map(|spot| (spot.value, spot.value + spot.size)));
    let (start, end) = random.pick(&parts);
    let byte = random.pick(&[start - 1, start, end - 1, end]) as u32 % 65_536;
    let (offsets, _) = mover.places();
    let pieces = mover.pieces.len();
    let piece = random.below(pieces as u64) as usize;
    laid.put_number(offsets.value, offsets.size == 4 * pieces, piece, byte);
}

/// The bytes of the file after damage of the header of its keys: one number or
/// more of the four, near what rule 15 compares them with.
pub fn header(mut laid: Laid, random: &mut Random) -> Vec<u8> {
    let spot = laid.spot(34735);
    let room = (spot.size as u16 / 2 - 4) / 4;
    for _ in 0..random.pick(&[1, 1, 1, 2]) {
        let (at, number) = match random.below(6) {
            0 => (0, random.pick(&[0, 1, 2, 256])),
            1 => (1, random.pick(&[0, 1, 2, 256])),
            2 => (3, random.pick(&[0, room, room + 1, 256, 257, 65_535])),
            _ => (2, random.pick(&[0, 1, 2, 3, 255, 256, 257, 65_535])),
        };
        laid.put_short(spot.value + 2 * at, number);
    }
    if random.chance(75) {
        return laid.bytes;
    }
    damage(laid, random)
}

/// Overwrites a field of one metadata tag, or brings a piece and it together.
fn text_field(laid: &mut Laid, random: &mut Random) {
    let text = random.pick(&laid.all(50909));
    let number = near(random, laid.n());
    match random.below(8) {
        0 => laid.put_short(text.entry, random.pick(&[0, 34737, 50908, 50910, 56774, 65_535])),
        1 => laid.put_short(text.entry + 2, random.pick(&[0, 2, 3, 4, 6, 7, 12, 13, 256])),
        2 => laid.put_long(text.entry + 4, random.pick(&[0, 1, 4, 5, number])),
        3 => laid.put_long(text.entry + 8, number),
        4 => {
            let other = random.pick(&laid.spots).entry;
            (0..12).for_each(|at| laid.bytes.swap(text.entry + at, other + at));
        }
        5 => {
            let piece = random.pick(&laid.pieces.clone()).0;
            laid.put_long(text.entry + 8, random.pick(&[piece, piece - piece % 2, piece + 1]));
        }
        _ => {
            let pieces = laid.pieces.len();
            let (offsets, _) = laid.places();
            let end = text.value + text.size;
            let byte = random.pick(&[text.value - 1, text.value, end - 1, end]) as u32 % 65_536;
            let piece = random.below(pieces as u64) as usize;
            laid.put_number(offsets.value, offsets.size == 4 * pieces, piece, byte);
        }
    }
}

/// The spots whose value still lies in the file.
fn whole_spots(laid: &Laid) -> Vec<Spot> {
    laid.spots.iter().filter(|spot| spot.value + spot.size <= laid.n()).cloned().collect()
}

/// A number that lies near something a rule compares with.
fn near(random: &mut Random, n: usize) -> u32 {
    let n = n as u32;
    let choices = [0, 1, 2, 3, 4, 6, 7, 8, 9, 12, 13, 42, 256, 1024, 32773, 65_535, 65_536];
    match random.below(4) {
        0 => random.pick(&choices),
        1 => random.pick(&[n - 2, n - 1, n, n + 1, n + 2, u32::MAX - 1, u32::MAX, 1 << 31]),
        2 => random.below(u64::from(n) + 2) as u32,
        _ => random.draw() as u32,
    }
}

fn flip(laid: &mut Laid, random: &mut Random) {
    for _ in 0..random.within(1, 4) {
        let at = random.below(laid.n() as u64) as usize;
        laid.bytes[at] ^= 1 << random.below(8);
    }
}

fn entry_field(laid: &mut Laid, random: &mut Random) {
    let spot = random.pick(&laid.spots);
    let number = near(random, laid.n());
    match random.below(4) {
        0 => laid.put_short(spot.entry, number as u16),
        1 => laid.put_short(spot.entry + 2, random.below(15) as u16),
        2 => laid.put_long(spot.entry + 4, number),
        _ => laid.put_long(spot.entry + 8, number),
    }
}

/// Overwrites a number of a value that rules 11 and 12 look at.
fn short_value(laid: &mut Laid, random: &mut Random) {
    let tested = [256, 257, 258, 259, 262, 277, 278, 284, 322, 323];
    let mut spots = whole_spots(laid);
    let in_mask = |tag: u16| laid.image.is_some() && tag == 254;
    spots.retain(|spot| tested.contains(&spot.tag) || in_mask(spot.tag));
    if spots.is_empty() {
        return;
    }
    let spot = random.pick(&spots);
    let drawn = near(random, laid.n()) as u16;
    let number = random.pick(&[0, 1, 2, 3, 4, 5, 8, 9, 15, 16, 17, 32, 33, 32773, drawn]);
    laid.put_short(spot.value + 2 * random.below(spot.size as u64 / 2) as usize, number);
}

fn double_value(laid: &mut Laid, random: &mut Random) {
    let mut spots = whole_spots(laid);
    spots.retain(|spot| [33550, 33922, 34264].contains(&spot.tag) && spot.size >= 8);
    if spots.is_empty() {
        return;
    }
    let spot = random.pick(&spots);
    let (nan, infinite) = (f64::from_bits(0x7FF8_0000_0000_0001), f64::INFINITY);
    let double = random.pick(&[0.0, -0.0, 1.0, -1.0, nan, infinite, f64::MAX, -f64::MAX, 5e-324]);
    let element = random.below(spot.size as u64 / 8) as usize;
    laid.put_double(spot.value + 8 * element, double.to_bits());
}

/// Overwrites a number of the key directory, often one of an entry.
fn key_field(laid: &mut Laid, random: &mut Random) {
    let whole = |spot: &Spot| spot.tag == 34735 && spot.size >= 8;
    let Some(spot) = whole_spots(laid).into_iter().find(whole) else { return };
    let place = random.below(spot.size as u64 / 2) as usize;
    let choices =
        [0, 1, 2, 3, 1024, 1025, 2048, 3072, 4326, 32600, 32662, 34735, 34736, 34737, 65_535];
    let number = match random.below(3) {
        0 => random.draw() as u16,
        _ => random.pick(&choices),
    };
    laid.put_short(spot.value + 2 * place, number);
}

fn piece_field(laid: &mut Laid, random: &mut Random) {
    let (offsets, counts) = laid.places();
    let spot = random.pick(&[offsets, counts]);
    if spot.value + spot.size > laid.n() {
        return;
    }
    let pieces = laid.pieces.len();
    let wide = spot.size == 4 * pieces;
    let number = near(random, laid.n());
    let number = if wide { number } else { number % 65_536 };
    laid.put_number(spot.value, wide, random.below(pieces as u64) as usize, number);
}

/// Gives entries tags of a family that they do not have, or takes a family's
/// tags from them; mostly the tags still ascend.
fn family_field(laid: &mut Laid, random: &mut Random) {
    let spots = laid.spots.clone();
    let family = random.pick(BOTH);
    let holds = |spot: &&Spot| family.tags().any(|tag| tag == spot.tag);
    let own: Vec<&Spot> = spots.iter().filter(holds).collect();
    if !own.is_empty() && random.chance(50) {
        let elsewhere: &[u16] = match family {
            Family::Strips => &[274, 280, 281],
            Family::Tiles => &[326, 327, 328, 329],
        };
        own.iter().zip(elsewhere).for_each(|(spot, &tag)| laid.put_short(spot.entry, tag));
        return;
    }
    let at = random.below(spots.len() as u64 - 2) as usize;
    let between = spots[at].tag + 1..spots[at + 2].tag;
    let fitting: Vec<u16> = family.tags().filter(|tag| between.contains(tag)).collect();
    if !fitting.is_empty() {
        laid.put_short(spots[at + 1].entry, random.pick(&fitting));
    }
}

fn swap_entries(laid: &mut Laid, random: &mut Random) {
    let (one, other) = (random.pick(&laid.spots).entry, random.pick(&laid.spots).entry);
    for at in 0..12 {
        laid.bytes.swap(one + at, other + at);
    }
}

fn head_field(laid: &mut Laid, random: &mut Random) {
    let number = near(random, laid.n());
    match random.below(5) {
        0 => laid.bytes[random.below(4) as usize] = number as u8,
        1 => laid.put_long(laid.pointer(), number),
        2 => laid.put_short(laid.directory, number as u16),
        3 => laid.put_long(laid.next(), number),
        _ => laid.put_short(laid.directory, laid.spots.len() as u16 + 1 - 2 * (number as u16 % 2)),
    }
}

/// Cuts the file, or adds bytes to it.
fn resize(laid: &mut Laid, random: &mut Random) {
    let n = laid.n();
    let length = match random.below(4) {
        0 => random.below(n as u64) as usize,
        1 => n - random.within(1, 3) as usize,
        2 => random.below(12) as usize,
        _ => n + random.within(1, 5) as usize,
    };
    laid.bytes.resize(length, 0x5A);
}
