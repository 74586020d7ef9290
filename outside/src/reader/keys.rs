//! The key directory: rules 15 to 19, for a file and for a key block alike.

use super::number::{short, Order};
use super::tables::*;
use super::verdict::{refuse, Refusal};

/// The three runs that hold keys: the values of 34735, 34736 and 34737, or
/// the three runs of a key block. An absent tag is none.
#[derive(Clone, Copy, Debug)]
pub struct Runs<'a> {
    pub order: Order,
    pub directory: &'a [u8],
    pub doubles: Option<&'a [u8]>,
    pub characters: Option<&'a [u8]>,
}

/// One entry of the key directory.
#[derive(Clone, Copy, Debug, PartialEq, Eq)]
pub struct KeyEntry {
    pub key: u16,
    pub location: u16,
    pub count: u16,
    pub index: u16,
}

impl Runs<'_> {
    /// Number `place`, counted from 0, of the key directory.
    pub fn number(&self, place: u64) -> u16 {
        short(self.order, self.directory, 2 * place)
    }

    /// The whole elements at a location; none where its tag is absent.
    pub fn elements(&self, location: u16) -> Option<u64> {
        match location {
            KEY_DIRECTORY => Some(self.directory.len() as u64 / 2),
            DOUBLES => self.doubles.map(|run| run.len() as u64 / 8),
            CHARACTERS => self.characters.map(|run| run.len() as u64),
            _ => None,
        }
    }

    fn entries(&self) -> Vec<KeyEntry> {
        let keys = u64::from(self.number(3));
        let entry = |place: u64| KeyEntry {
            key: self.number(4 + 4 * place),
            location: self.number(4 + 4 * place + 1),
            count: self.number(4 + 4 * place + 2),
            index: self.number(4 + 4 * place + 3),
        };
        (0..keys).map(entry).collect()
    }
}

/// Rules 15 to 19; the minor revision and the entries of the key directory
/// where all are kept.
pub fn rules15to19(runs: &Runs, rules: Rules) -> Result<(u16, Vec<KeyEntry>), Refusal> {
    let minor = rule15(runs, rules)?;
    let entries = runs.entries();
    rule16(&entries)?;
    rule17(runs, &entries)?;
    rule18(&entries)?;
    rule19(&entries)?;
    Ok((minor, entries))
}

/// Rule 15: the first four numbers, and room for K entries. It says which minor
/// revision the third number is.
fn rule15(runs: &Runs, rules: Rules) -> Result<u16, Refusal> {
    let numbers = runs.directory.len() as u64 / 2;
    if numbers < 4 {
        return refuse(15, 0, "under 4 numbers");
    }
    if runs.number(0) != 1 {
        return refuse(15, 0, "first number");
    }
    if runs.number(1) != 1 {
        return refuse(15, 0, "second number");
    }
    let minor = runs.number(2);
    if !rules.minors.contains(&minor) {
        return refuse(15, 0, "third number");
    }
    if runs.number(3) > MOST_KEYS {
        return refuse(15, 0, "K above 256");
    }
    if numbers < 4 + 4 * u64::from(runs.number(3)) {
        return refuse(15, 0, "count below 4 + 4K");
    }
    Ok(minor)
}

/// Rule 16: each key is greater than the one before.
fn rule16(entries: &[KeyEntry]) -> Result<(), Refusal> {
    for pair in entries.windows(2) {
        let later = u32::from(pair[1].key);
        if pair[1].key == pair[0].key {
            return refuse(16, later, "equal key");
        }
        if pair[1].key < pair[0].key {
            return refuse(16, later, "smaller key");
        }
    }
    Ok(())
}

/// Rule 17: location, count and value index of each key.
fn rule17(runs: &Runs, entries: &[KeyEntry]) -> Result<(), Refusal> {
    for entry in entries {
        if let Some(what) = entry_fault(runs, entry) {
            return refuse(17, u32::from(entry.key), &what);
        }
    }
    Ok(())
}

/// What rule 17 finds wrong with an entry of the key directory.
fn entry_fault(runs: &Runs, entry: &KeyEntry) -> Option<String> {
    let kind = kind_of(entry.key);
    let word = kind.word();
    let locations: &[u16] = match kind {
        Kind::Short => &[0],
        Kind::Double => &[DOUBLES],
        Kind::Ascii => &[CHARACTERS],
        Kind::Other => &[0, KEY_DIRECTORY, DOUBLES, CHARACTERS],
    };
    if !locations.contains(&entry.location) {
        return Some(format!("{word} location"));
    }
    let just_one = entry.location == 0 || kind == Kind::Double;
    let at = if kind == Kind::Other { format!(" at {}", entry.location) } else { String::new() };
    if if just_one { entry.count != 1 } else { entry.count < 1 } {
        return Some(format!("{word} count{at}"));
    }
    if entry.location == 0 {
        return None;
    }
    let Some(elements) = runs.elements(entry.location) else {
        return Some(format!("{word} absent{at}"));
    };
    let end = u64::from(entry.index) + u64::from(entry.count);
    if end > elements {
        return Some(format!("{word} index{at}"));
    }
    if kind == Kind::Ascii && runs.characters?[end as usize - 1] != b'|' {
        return Some(format!("{word} final"));
    }
    None
}

/// The number of a SHORT key, where it is present.
pub fn number_of(entries: &[KeyEntry], key: u16) -> Option<u16> {
    entries.iter().find(|entry| entry.key == key).map(|entry| entry.index)
}

/// Rule 18: every needed key is present.
fn rule18(entries: &[KeyEntry]) -> Result<(), Refusal> {
    let model = number_of(entries, MODEL);
    for row in KEYS.iter() {
        let needed = match row.needed {
            Needed::No => false,
            Needed::Always => true,
            Needed::IfModel(number) => model == Some(number),
        };
        if needed && number_of(entries, row.key).is_none() {
            return refuse(18, u32::from(row.key), &format!("{} absent", row.key));
        }
    }
    Ok(())
}

/// Rule 19: the numbers of the tested keys.
fn rule19(entries: &[KeyEntry]) -> Result<(), Refusal> {
    for row in KEYS.iter() {
        let number = number_of(entries, row.key).map(u32::from);
        if let Some(side) = number.and_then(|number| outside(row.allowed, number)) {
            return refuse(19, u32::from(row.key), &format!("{} {side}", row.key));
        }
    }
    Ok(())
}
