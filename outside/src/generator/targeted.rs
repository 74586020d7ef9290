//! The targeted cases: for every clause of every rule a file just beyond its
//! boundary and one just within, each with the verdict it must give by
//! construction. `pairs` breaks two rules at once: the first must be named. What
//! an image and a mask have in common is tried on both.

mod bases;
mod blocks;
mod calls;
mod directory;
mod families;
mod ground;
mod head;
mod keys;
mod masks;
mod mosaics;
mod pairs;
mod pieces;
mod revisions;
mod tags;

use super::prng::Random;
use crate::reader::clauses::registered;
use crate::reader::tables::Family;
use crate::reader::{self, Order, Verdict};
use bases::Bases;

/// The call a case makes.
#[derive(Clone, Debug)]
pub enum Call {
    Judge,
    /// With so many rows lent.
    Rows(usize),
    /// Of this key.
    Citation(u32),
    /// Of this number.
    Metadata(u32),
    /// With so many bytes of output.
    Block(usize),
    /// On the three runs of a key block; the case has no file.
    ReadBlock([Vec<u8>; 3]),
}

/// One file (or key block), one call on it and the verdict it must give.
#[derive(Clone, Debug)]
pub struct Case {
    /// The clause at whose boundary the case stands.
    pub clause: &'static str,
    /// Whether that clause is broken; else it is just kept.
    pub broken: bool,
    pub call: Call,
    pub file: Vec<u8>,
    pub want: Verdict,
}

impl Case {
    /// The reader's verdict on the case, and the clause it names.
    pub fn answer(&self) -> (Verdict, &'static str) {
        match &self.call {
            Call::Judge => reader::judge_clause(&self.file),
            Call::Rows(lent) => reader::key_rows_clause(&self.file, *lent),
            Call::Citation(key) => reader::citation_clause(&self.file, *key),
            Call::Metadata(number) => reader::metadata_clause(&self.file, *number),
            Call::Block(room) => reader::key_block_clause(&self.file, *room),
            Call::ReadBlock([directory, doubles, characters]) => {
                reader::read_block_clause(directory, doubles, characters)
            }
        }
    }
}

/// The cases so far.
#[derive(Default)]
pub struct Cases {
    list: Vec<Case>,
    /// Whether clauses are those of a mask.
    mask: bool,
}

/// The number of the rule that a clause belongs to.
fn rule_of(clause: &str) -> u32 {
    let number = clause.split(' ').find(|word| *word != "block");
    number.and_then(|word| word.parse().ok()).expect("a clause starts with its rule")
}

impl Cases {
    fn add(&mut self, clause: &str, broken: bool, call: Call, file: Vec<u8>, want: (u32, u32)) {
        let name = registered(clause);
        assert_eq!(name, clause, "a clause of the list");
        let want = Verdict { number: want.0, place: want.1 };
        self.list.push(Case { clause: name, broken, call, file, want });
    }

    /// What a clause is called, of an image or of a mask.
    fn name(&self, clause: &str) -> String {
        format!("{}{clause}", if self.mask { "28 " } else { "" })
    }

    /// What a file is refused with that breaks this rule at this place, by its image
    /// or by its mask.
    fn refusal(&self, number: u32, place: u32) -> (u32, u32) {
        if self.mask {
            (28, number)
        } else {
            (number, place)
        }
    }

    /// A file that breaks the clause, at this place.
    fn broken(&mut self, clause: &str, file: Vec<u8>, place: u32) {
        let want = self.refusal(rule_of(clause), place);
        self.add(&self.name(clause), true, Call::Judge, file, want);
    }

    /// A file that just keeps the clause and every other one.
    fn kept(&mut self, clause: &str, file: Vec<u8>) {
        self.add(&self.name(clause), false, Call::Judge, file, (0, 0));
    }

    /// A file that just keeps the clause and must then break a later rule.
    fn kept_until(&mut self, clause: &str, file: Vec<u8>, number: u32, place: u32) {
        let want = self.refusal(number, place);
        self.add(&self.name(clause), false, Call::Judge, file, want);
    }
}

/// The byte orders and families of pieces that the cases are made for.
const SORTS: [(Order, Family); 4] = [
    (Order::Little, Family::Strips),
    (Order::Big, Family::Strips),
    (Order::Little, Family::Tiles),
    (Order::Big, Family::Tiles),
];

/// The family of the image before the masks of each sort.
const BEHIND: [Family; 4] = [Family::Tiles, Family::Strips, Family::Strips, Family::Tiles];

/// Rules 4 to 14 and 27, of an image or of a mask.
fn directories(bases: &mut Bases, cases: &mut Cases) {
    head::directories(bases, cases);
    directory::cases(bases, cases);
    families::cases(bases, cases);
    tags::cases(bases, cases);
    pieces::cases(bases, cases);
    mosaics::repeated(bases, cases);
}

/// All targeted cases; the seed draws free bytes, layouts and pictures.
pub fn targeted(seed: u64) -> Vec<Case> {
    let mut cases = Cases::default();
    for (number, (order, family)) in (0..).zip(SORTS) {
        let random = Random::new(seed).branch(number);
        let mut bases = Bases { order, family, behind: None, random };
        head::cases(&mut bases, &mut cases);
        directories(&mut bases, &mut cases);
        keys::cases(&mut bases, &mut cases);
        ground::cases(&mut bases, &mut cases);
        calls::cases(&mut bases, &mut cases);
        mosaics::cases(&mut bases, &mut cases);
        pairs::cases(&mut bases, &mut cases);
        revisions::cases(&mut bases, &mut cases);
    }
    blocks::cases(&mut cases);
    cases.mask = true;
    for (number, ((order, family), behind)) in (4..).zip(SORTS.into_iter().zip(BEHIND)) {
        let random = Random::new(seed).branch(number);
        let mut bases = Bases { order, family, behind: Some(behind), random };
        directories(&mut bases, &mut cases);
        masks::cases(&mut bases, &mut cases);
        pairs::cases_of_mask(&mut bases, &mut cases);
    }
    cases.list
}

/// The files of those that ask for the plain judgement.
pub fn targeted_files(seed: u64) -> impl Iterator<Item = Vec<u8>> {
    let plain = targeted(seed).into_iter().filter(|case| matches!(case.call, Call::Judge));
    plain.map(|case| case.file)
}
