//! What a mask alone has: two directories on one list and two pictures off it,
//! the image's size, bits and samples of 1, tags outside its table that an image
//! has in its own; and every call on a file with a mask, kept or broken.

use super::bases::{few_keys, many_keys, Bases, MATRIX};
use super::mosaics::{mosaic, LONG};
use super::pieces::{around, around_of, fourteen, parts, with_piece, with_piece_of};
use super::tags::zeros;
use super::{Call, Cases};
use crate::generator::plan::{Laid, Part, Plan, Tag};
use crate::reader::tables::{BOTH, TAGS};

pub fn cases(bases: &mut Bases, cases: &mut Cases) {
    let behind = bases.behind;
    for family in BOTH {
        bases.behind = Some(*family);
        image_on_mask(bases, cases);
        mask_on_image(bases, cases);
        pictures_over_each_other(bases, cases);
        lists_over_each_other(bases, cases);
        over_unknown_values(bases, cases);
        whole_files(bases, cases);
    }
    bases.behind = behind;
    sizes(bases, cases);
    bits(bases, cases);
    unknown_tags(bases, cases);
    where_it_stands(bases, cases);
    every_call(bases, cases);
}

/// A mask of three pieces behind an image of three, with every tag of the
/// table; four free bytes stand around each part.
fn both(bases: &mut Bases) -> Plan {
    let image = mosaic(&mut bases.of_image(), &LONG);
    let mut plan = bases.mask_of(image);
    plan.gap = (4, 4);
    plan
}

/// The clause of rule 14 for a piece of the image on the mask's part of the list.
fn of_image(bases: &Bases, name: &str) -> String {
    format!("14 {} of the image on {name}", bases.behind.expect("an image").word())
}

/// Each piece of the image at both ends of each part of the mask.
fn image_on_mask(bases: &mut Bases, cases: &mut Cases) {
    for piece in 0..3 {
        let laid = both(bases).lay();
        for part in parts(&bases.rows(), &laid.sheet, |name| of_image(bases, name)) {
            around_of(&laid, &laid.its_image(), piece, &part, cases);
        }
    }
}

/// Each piece of the mask at both ends of each part of the image.
fn mask_on_image(bases: &mut Bases, cases: &mut Cases) {
    let of_image = |bases: &Bases, laid: &Laid| {
        let clause = |name: &str| fourteen(bases.family, &format!("{name} of the image"));
        parts(&TAGS, &laid.its_image(), clause)
    };
    for piece in 0..3 {
        let laid = both(bases).lay();
        for part in of_image(bases, &laid) {
            around(&laid, piece, &part, cases);
        }
    }
    let mut plan = both(bases);
    let image = plan.image.as_mut().expect("an image");
    [33550, 33922].iter().for_each(|&tag| image.remove(tag));
    image.set(Tag::doubles(34264, &MATRIX));
    let laid = plan.lay();
    for part in of_image(bases, &laid).iter().filter(|part| part.0.contains("34264")) {
        around(&laid, 1, part, cases);
    }
}

/// The pictures may share bytes: the same ones, one in the other, by one byte.
fn pictures_over_each_other(bases: &mut Bases, cases: &mut Cases) {
    let laid = both(bases).lay();
    let clauses = [fourteen(bases.family, "directory"), of_image(bases, "directory")];
    for (piece, &(at, count)) in laid.its_image().pieces.iter().enumerate() {
        let (at, count) = (at as usize, count as usize);
        for place in [(at, count), (at + 1, count - 2), (at - 2, count + 3), (at + count - 1, 1)] {
            let file = with_piece(&laid, piece, place.0, place.1).bytes;
            clauses.iter().for_each(|clause| cases.kept(clause, file.clone()));
        }
    }
}

/// A piece on all of the file is on the list's first part: of the mask the
/// image's directory. Of the image it is on its own list, and that is rule 14.
fn whole_files(bases: &mut Bases, cases: &mut Cases) {
    let laid = both(bases).lay();
    let whole = (8, laid.n() - 8);
    for piece in 0..3 {
        let file = with_piece(&laid, piece, whole.0, whole.1).bytes;
        cases.broken(&fourteen(bases.family, "directory of the image"), file, 0);
        let file = with_piece_of(&laid, &laid.its_image(), piece, whole).bytes;
        let clause = fourteen(bases.behind.expect("an image"), "directory");
        cases.add(&clause, true, Call::Judge, file, (14, piece as u32));
    }
}

/// The two directories and their values may share bytes with each other.
fn lists_over_each_other(bases: &mut Bases, cases: &mut Cases) {
    let mut plan = both(bases);
    let clauses = [fourteen(bases.family, "directory"), of_image(bases, "directory")];
    let mut kept = |laid: Laid| {
        clauses.iter().for_each(|clause| cases.kept(clause, laid.bytes.clone()));
    };
    // texts of the image over the mask's directory and over its values
    let laid = plan.lay();
    for text in laid.its_image().all(50909) {
        for host in [laid.directory, laid.places().0.value, laid.places().1.value] {
            let mut laid = laid.clone();
            laid.put_long(text.entry + 8, host as u32);
            kept(laid);
        }
    }
    // the same pieces told of by the same bytes
    if bases.behind == Some(bases.family) {
        let counts = plan.its_image().pieces.clone();
        plan.set_pieces(bases.family, &counts, (true, true));
        let mut laid = plan.lay();
        let ((offsets, counts), image) = (laid.places(), laid.its_image().places());
        for (own, its) in [(counts, image.1), (offsets, image.0)] {
            laid.put_long(own.entry + 8, its.value as u32);
            kept(laid.clone());
        }
    }
}

/// Values of tags outside the mask's table may lie anywhere, also under either
/// picture.
fn over_unknown_values(bases: &mut Bases, cases: &mut Cases) {
    let mut plan = both(bases);
    plan.set(Tag::doubles(33550, &[1.0]));
    plan.set(Tag::bytes(34735, 7, b"no keys"));
    [b"a text", b"a mask"].iter().for_each(|text| plan.add(Tag::bytes(50909, 2, *text)));
    let laid = plan.lay();
    let unknown = laid.spots.iter().filter(|spot| spot.tag > 325);
    for spot in unknown.filter(|spot| spot.size > 4) {
        let place = (spot.value, spot.size);
        let over = with_piece(&laid, 1, place.0, place.1).bytes;
        cases.kept(&fourteen(bases.family, "directory"), over);
        let over = with_piece_of(&laid, &laid.its_image(), 2, place).bytes;
        cases.kept(&of_image(bases, "directory"), over);
        for host in [laid.directory, laid.its_image().directory, 8] {
            let mut laid = laid.clone();
            laid.put_long(spot.entry + 8, host as u32);
            cases.kept(&fourteen(bases.family, "directory"), laid.bytes);
        }
    }
}

/// The image's size in another type, one more or less, and exchanged.
fn sizes(bases: &mut Bases, cases: &mut Cases) {
    for (tag, number) in [(256, 40), (257, 5)] {
        for wide in [false, true] {
            for (of_mask, side) in
                [(number, ""), (number - 1, "below"), (number + 1, "above"), (0, "below")]
            {
                let mut plan = both(bases);
                plan.set(Tag::numbers(tag, wide, &[of_mask]));
                let file = plan.lay().bytes;
                match side {
                    "" => cases.kept(&format!("11 {tag} below"), file),
                    _ => cases.broken(&format!("11 {tag} {side}"), file, 0),
                }
            }
        }
    }
    let mut exchanged = both(bases);
    exchanged.set(Tag::longs(256, &[5]));
    exchanged.set(Tag::longs(257, &[40]));
    cases.broken("11 256 below", exchanged.lay().bytes, 0);
    // the same 16 bits under others
    let mut wide = both(bases);
    wide.set(Tag::longs(256, &[65_536 + 40]));
    cases.broken("11 256 above", wide.lay().bytes, 0);
}

/// More than one value of 258: each is tested before their number is.
fn bits(bases: &mut Bases, cases: &mut Cases) {
    let count = "12 258 count is not samples";
    let of = |bases: &mut Bases, bits: &[u16], samples: u16| {
        let mut plan = bases.rich();
        plan.set(Tag::shorts(258, bits));
        plan.set(Tag::shorts(277, &[samples]));
        plan.lay().bytes
    };
    for values in 2..=9 {
        cases.broken(count, of(bases, &vec![1; values], 1), 0);
        cases.broken("11 277 above", of(bases, &vec![1; values], values as u16), 0);
        let mut last = vec![1; values];
        last[values - 1] = 8;
        cases.broken("11 258 above", of(bases, &last, 1), 0);
        last[values - 1] = 0;
        cases.broken("11 258 below", of(bases, &last, 1), 0);
    }
    cases.kept(count, of(bases, &[1], 1));
}

/// Tags that an image has in its table, and the mask's 254 in an image.
fn unknown_tags(bases: &mut Bases, cases: &mut Cases) {
    let in_tables = TAGS.iter().filter(|row| row.tag > 325);
    for row in in_tables {
        for (kind, count) in [(1, 1), (3, 3), (5, 1), (7, 40), (12, 2), (13, 0), (0, 9)] {
            let mut plan = bases.plain();
            plan.set(zeros(row.tag, kind, count));
            cases.kept("10 254 type", plan.lay().bytes);
            plan.set(zeros(row.tag, kind.clamp(1, 12), 0));
            let clause = format!("7 type {} count 0", kind.clamp(1, 12));
            cases.broken(&clause, plan.lay().bytes, 0);
        }
    }
    let of_image = [
        Tag::longs(254, &[0]),
        Tag::longs(254, &[4]),
        Tag::shorts(254, &[4]),
        Tag::longs(254, &[4, 4, 4]),
        Tag::raw(254, 13, 0, [0xFF; 4]),
    ];
    for tag in of_image {
        let mut plan = bases.rich();
        plan.image.as_mut().expect("an image").set(tag);
        cases.kept("11 254 above", plan.lay().bytes);
    }
}

/// The mask's directory before and behind everything else, and between.
fn where_it_stands(bases: &mut Bases, cases: &mut Cases) {
    let offsets = both(bases).tags.iter().position(|tag| tag.tag == bases.family.places().0);
    let value = Part::Value(offsets.expect("offsets of pieces"));
    for part in [Part::Directory, value, Part::Piece(1), Part::ImageDirectory] {
        let mut plan = both(bases);
        plan.first = vec![part];
        cases.kept("4 below 8", plan.lay().bytes);
        (plan.first, plan.last) = (Vec::new(), vec![part]);
        cases.kept("5 past n", plan.lay().bytes);
        for between in [Part::ImagePiece(0), Part::ImagePiece(1)] {
            plan.first = vec![Part::ImagePiece(2), Part::Directory];
            plan.last = vec![between];
            cases.kept("5 past n", plan.lay().bytes);
        }
    }
}

/// Rules 23 to 26 and 29 with a mask that is kept; with one that is broken each
/// call gives 28.
fn every_call(bases: &mut Bases, cases: &mut Cases) {
    let k = many_keys().list.len();
    let calls = [
        ("23 fewer rows than K", Call::Rows(k - 1), (23, k as u32)),
        ("23 fewer rows than K", Call::Rows(k), (0, 0)),
        ("25 output too short", Call::Block(0), (25, 0)),
        ("26 ASCII key absent", Call::Citation(2049), (26, 2049)),
        ("26 ASCII key absent", Call::Citation(1026), (0, 0)),
        ("26 present key not ASCII", Call::Citation(1024), (26, 1024)),
        ("29 not below the number of 50909", Call::Metadata(3), (29, 3)),
        ("29 not below the number of 50909", Call::Metadata(2), (0, 0)),
    ];
    let bytes: usize = many_keys().encode().runs().iter().map(Vec::len).sum();
    for (clause, call, want) in calls {
        let want = if want.0 == 25 { (25, bytes as u32) } else { want };
        let mut plan = both(bases);
        cases.add(clause, want.0 != 0, call.clone(), plan.lay().bytes, want);
        plan.set(Tag::longs(254, &[5]));
        cases.add("28 11 254 above", true, call.clone(), plan.lay().bytes, (28, 11));
        plan.remove(254);
        cases.add("28 9 254 absent", true, call, plan.lay().bytes, (28, 9));
    }
    let starts = super::calls::filled(34735, 65_536);
    for keys in [few_keys(), starts] {
        let mut plan = both(bases);
        plan.image.as_mut().expect("an image").set_keys(&keys.encode());
        plan.set(Tag::shorts(262, &[3]));
        for room in [0, 1 << 21] {
            let file = plan.lay().bytes;
            cases.add("28 11 262 below", true, Call::Block(room), file, (28, 11));
        }
    }
}
