//! Two rules broken at once in one file, by its image or by its mask: the first
//! of them is named, in order of number but for 27, which is between 8 and 9, and
//! for the mask's, which come behind all others. And tags of rule 12 at fault together: the lowest is named.
//! And texts asked for by a number that no text has: rule 29 is the last.

use super::bases::Bases;
use super::mosaics::{mosaic, LONG};
use super::{rule_of, Call, Cases};
use crate::generator::plan::{Laid, Plan, Tag};
use crate::reader::tables::Family;

/// A clause, "piece" in it for the word of the family; its place, and how to break it without touching the others.
type Damage = (&'static str, u32, fn(&mut Laid));

/// One damage for each rule, in their order, on the rich file.
pub const DAMAGES: [Damage; 22] = [
    ("2 neither order", 0, |laid| laid.bytes[0] = 0),
    ("3 not 42", 0, |laid| laid.put_short(2, 43)),
    ("4 odd", 0, |laid| laid.put_long(laid.pointer(), 9)),
    ("5 c is 0", 0, |laid| laid.put_short(laid.directory, 0)),
    ("6 equal tag", 65_000, |laid| laid.put_short(laid.spot(65_001).entry, 65_000)),
    ("7 type 2 count 0", 305, |laid| laid.put_long(laid.spot(305).entry + 4, 0)),
    ("27 both families", 0, |laid| {
        let (from, to) = if laid.tiled() { (270, 273) } else { (320, 322) };
        laid.put_short(laid.spot(from).entry, to);
    }),
    ("9 256 absent", 256, |laid| laid.put_short(laid.spot(256).entry, 255)),
    ("10 257 type", 257, |laid| laid.put_short(laid.spot(257).entry + 2, 13)),
    ("11 262 above", 262, |laid| laid.put_short(laid.spot(262).value, 5)),
    ("12 258 values differ", 258, |laid| laid.put_short(laid.spot(258).value + 4, 16)),
    ("13 piece byte count 0", 1, |laid| laid.put_long(laid.places().1.value + 4, 0)),
    ("14 piece on directory", 0, |laid| {
        laid.put_long(laid.places().0.value, laid.directory as u32);
    }),
    ("15 third number", 0, |laid| laid.put_short(laid.spot(34735).value + 4, 2)),
    ("16 equal key", 60_002, |laid| put_key(laid, 11, 0, 60_002)),
    ("17 ASCII location", 1026, |laid| put_key(laid, 2, 1, 7)),
    ("18 1024 absent", 1024, |laid| put_key(laid, 0, 0, 1023)),
    ("19 3076 above", 3076, |laid| put_key(laid, 6, 3, 9002)),
    ("20 scale alone", 0, |laid| laid.put_short(laid.spot(33922).entry, 33921)),
    ("21 33550 X not above 0", 33550, |laid| laid.put_double(laid.spot(33550).value, 0)),
    ("22 scaled second Y infinite", 0, |laid| {
        laid.put_double(laid.spot(33550).value + 8, 1e308f64.to_bits());
        laid.put_double(laid.spot(33922).value + 32, (-f64::MAX).to_bits());
    }),
    ("28 4 odd", 4, |laid| laid.put_long(laid.next(), 9)),
];

/// One for each rule of a mask, on the rich mask: those of the image, but for two.
fn of_mask() -> Vec<Damage> {
    let mut damages = DAMAGES.to_vec();
    damages.retain(|damage| matches!(rule_of(damage.0), 4..=14 | 27));
    let at = |rule: u32| move |damage: &Damage| rule_of(damage.0) == rule;
    let twelve = damages.iter().position(at(12)).expect("rule 12");
    damages[twelve] = ("12 258 count is not samples", 258, |laid| {
        let bits = laid.spot(258).entry;
        laid.put_long(bits + 4, 2);
        laid.put_short(bits + 10, 1);
    });
    let eight = damages.iter().position(at(27)).expect("rule 27");
    damages.insert(eight, ("8 next offset", 0, |laid| laid.put_long(laid.next(), 8)));
    damages
}

/// Puts a number of the key directory's entry at `position`.
fn put_key(laid: &mut Laid, position: usize, column: usize, number: u16) {
    laid.put_short(laid.spot(34735).value + 8 + 8 * position + 2 * column, number);
}

/// A tag of rule 12, two clauses that it can break, and how to break each in a
/// file of three samples and five pieces without mending the others.
type Disagreement = (u16, [&'static str; 2], fn(&mut Plan, usize));

/// Those of the picture, whatever its pieces.
const OF_PICTURE: [Disagreement; 2] = [
    (258, ["12 258 count is not samples", "12 258 values differ"], |plan, way| {
        plan.set(Tag::shorts(258, [&[8, 8][..], &[8, 8, 16]][way]));
    }),
    (259, ["12 259 is 2, bits not 1", "12 259 is 32773, bits not 1"], |plan, way| {
        plan.set(Tag::shorts(259, &[[2, 32_773][way]]));
    }),
];

const OF_STRIPS: [Disagreement; 2] = [
    (273, ["12 273 too few", "12 273 too many"], |plan, way| plan.find(273).count = [4, 6][way]),
    (279, ["12 279 too few", "12 279 too many"], |plan, way| {
        plan.set(Tag::longs(279, &vec![1; [4, 6][way]]));
    }),
];

const OF_TILES: [Disagreement; 2] = [
    (324, ["12 324 too few", "12 324 too many"], |plan, way| plan.find(324).count = [4, 6][way]),
    (325, ["12 325 too few", "12 325 too many"], |plan, way| {
        plan.set(Tag::longs(325, &vec![1; [4, 6][way]]));
    }),
];

/// Damages of a mosaic that a later one of its metadata tags has alone.
const OF_LATER: [Damage; 4] = [
    ("6 50909 apart", 50_909, |laid| laid.put_short(laid.all(50_909)[1].entry, 50_910)),
    ("7 a later 50909 count 0", 50_909, |laid| laid.put_long(laid.all(50_909)[2].entry + 4, 0)),
    ("10 a later 50909 type", 50_909, |laid| laid.put_short(laid.all(50_909)[1].entry + 2, 2)),
    ("14 piece on value of a later 50909", 0, |laid| {
        let (offsets, byte_counts) = laid.places();
        laid.put_long(offsets.value, laid.all(50_909)[2].value as u32);
        laid.put_long(byte_counts.value, 1);
    }),
];

pub fn cases(bases: &mut Bases, cases: &mut Cases) {
    rules_together(bases, cases, &DAMAGES);
    image_before_mask(bases, cases);
    tags_together(bases, cases);
    later_texts_together(bases, cases);
    numbers_last(bases, cases);
}

/// A later metadata tag at fault, with itself alone and with each other rule.
fn later_texts_together(bases: &mut Bases, cases: &mut Cases) {
    let order = |rule: u32| DAMAGES.iter().position(|damage| rule_of(damage.0) == rule);
    for of_later in &OF_LATER {
        let alone = [of_later].into_iter();
        let others = DAMAGES.iter().filter(|other| rule_of(other.0) != rule_of(of_later.0));
        for other in alone.chain(others) {
            let first = order(rule_of(other.0)) < order(rule_of(of_later.0));
            let (clause, place, _) = if first { other } else { of_later };
            let mut laid = mosaic(bases, &LONG).lay();
            other.2(&mut laid);
            of_later.2(&mut laid);
            cases.broken(&clause.replace("piece", bases.family.word()), laid.bytes, *place);
        }
    }
}

/// Every rule of the file comes before 29, in a file of one text and in one of
/// three, and names the same place in both.
fn numbers_last(bases: &mut Bases, cases: &mut Cases) {
    for (clause, place, damage) in &DAMAGES {
        let clause = clause.replace("piece", bases.family.word());
        for plan in [bases.rich(), mosaic(bases, &LONG)] {
            let mut laid = plan.lay();
            damage(&mut laid);
            cases.broken(&clause, laid.bytes.clone(), *place);
            for number in [0, 1, 3, u32::MAX] {
                let want = (rule_of(&clause), *place);
                cases.add(&clause, true, Call::Metadata(number), laid.bytes.clone(), want);
            }
        }
    }
    for number in [0, 1, u32::MAX] {
        cases.add("1 n below 8", true, Call::Metadata(number), Vec::new(), (1, 0));
    }
}

/// Every choice of two, three or four of rule 12's tags, each in both ways; the
/// bits of `chosen` say which tags, those of `ways` in which way.
fn tags_together(bases: &mut Bases, cases: &mut Cases) {
    let of_pieces = if bases.family == Family::Strips { OF_STRIPS } else { OF_TILES };
    let disagreements = [OF_PICTURE, of_pieces].concat();
    for chosen in (1_usize..16).filter(|chosen| chosen.count_ones() > 1) {
        for ways in (0..16).filter(|ways| ways & !chosen == 0) {
            let mut plan = bases.rich();
            bases.cut(&mut plan, &[12, 9, 7, 5, 3]);
            for at in (0..4).filter(|at| chosen >> at & 1 == 1) {
                disagreements[at].2(&mut plan, ways >> at & 1);
            }
            let lowest = chosen.trailing_zeros() as usize;
            let (tag, clauses, _) = disagreements[lowest];
            cases.broken(clauses[ways >> lowest & 1], plan.lay().bytes, u32::from(tag));
        }
    }
}

/// The same of the rules of a mask.
pub fn cases_of_mask(bases: &mut Bases, cases: &mut Cases) {
    rules_together(bases, cases, &of_mask());
}

/// Each rule with itself alone, and with each later one.
fn rules_together(bases: &mut Bases, cases: &mut Cases, damages: &[Damage]) {
    for (at, (clause, place, first)) in damages.iter().enumerate() {
        let clause = clause.replace("piece", bases.family.word());
        for (_, _, second) in &damages[at..] {
            let mut laid = bases.rich().lay();
            second(&mut laid);
            first(&mut laid);
            cases.broken(&clause, laid.bytes, *place);
        }
    }
}

/// Each rule of the image before a mask that keeps every rule, and before one
/// that breaks the first rule or a later one: the mask is not looked at.
fn image_before_mask(bases: &mut Bases, cases: &mut Cases) {
    let spoiled: [fn(&mut Plan); 3] = [|_| (), |mask| mask.remove(254), |mask| mask.tags.clear()];
    for (clause, place, damage) in DAMAGES.iter().filter(|damage| rule_of(damage.0) != 28) {
        for spoil in spoiled {
            let image = bases.rich();
            let mut mask = bases.mask_of(image);
            spoil(&mut mask);
            let mut laid = mask.lay().turned();
            damage(&mut laid);
            cases.broken(&clause.replace("piece", bases.family.word()), laid.bytes, *place);
        }
    }
}
