//! The head and the directories of the file, the image's and the mask's: rules 1
//! to 8 and 27.

use super::number::{index, long, short, size_of_type, Order};
use super::tables::{
    of_mask, Family, Need, Rules, TagRow, IN_FORCE, LENGTH, LONGEST, METADATA, MOST_ENTRIES, TAGS,
    WIDTH,
};
use super::tags::one;
use super::verdict::{refuse, Refusal};
use std::ops::Range;

/// One entry of the directory.
#[derive(Clone, Debug)]
pub struct Entry {
    /// The entry's first byte in the file.
    pub at: u64,
    pub tag: u16,
    pub kind: u16,
    pub count: u32,
    /// The last four bytes of the entry, read as an offset.
    pub offset: u32,
}

impl Entry {
    /// The bytes of the file that hold the value; none for an unknown type.
    pub fn value(&self) -> Option<Range<u64>> {
        let size = size_of_type(self.kind)? * u64::from(self.count);
        let start = if size <= 4 { self.at + 8 } else { u64::from(self.offset) };
        Some(start..start + size)
    }

    pub fn in_entry(&self) -> bool {
        self.value().is_some_and(|value| value.end - value.start <= 4)
    }
}

/// A directory that keeps rules 1 to 5.
#[derive(Clone, Debug)]
pub struct Directory<'a> {
    pub file: &'a [u8],
    pub order: Order,
    pub at: u64,
    pub entries: Vec<Entry>,
    pub next: u32,
    pub rules: Rules,
    /// The table of its tags, with the rows of the known families only.
    pub table: Vec<TagRow>,
    /// Whether no other may follow it.
    last: bool,
}

impl<'a> Directory<'a> {
    /// Rules 1 to 5: the image's.
    pub fn open(file: &'a [u8], rules: Rules) -> Result<Self, Refusal> {
        let (order, at) = head(file)?;
        Directory::at(file, (order, at), rules, TAGS.to_vec(), !rules.masks)
    }

    /// Where the mask's is said to be, if the image's, which this is, leads to one.
    pub fn leads_to(&self) -> Option<u64> {
        (!self.last && self.next != 0).then_some(u64::from(self.next))
    }

    /// Rules 4 and 5 of the mask's, for an image that keeps rules 1 to 22.
    pub fn mask(&self, at: u64) -> Result<Self, Refusal> {
        let table = of_mask(one(self, WIDTH), one(self, LENGTH));
        Directory::at(self.file, (self.order, at), self.rules, table, true)
    }

    /// Rules 4 and 5 on a directory that is said to be at `at`.
    fn at(
        file: &'a [u8],
        (order, at): (Order, u64),
        rules: Rules,
        mut table: Vec<TagRow>,
        last: bool,
    ) -> Result<Self, Refusal> {
        rule4(file, at)?;
        let count = rule5(file, order, at)?;
        let entries = (0..count).map(|number| entry(file, order, at + 2 + 12 * number)).collect();
        let next = long(order, file, at + 2 + 12 * count);
        table.retain(|row| match row.need {
            Need::In(family) => rules.families.contains(&family),
            _ => true,
        });
        Ok(Directory { file, order, at, entries, next, rules, table, last })
    }

    pub fn n(&self) -> u64 {
        self.file.len() as u64
    }

    /// The whole directory, with its count and its next offset.
    pub fn range(&self) -> Range<u64> {
        self.at..self.at + 2 + 12 * self.entries.len() as u64 + 4
    }

    pub fn find(&self, tag: u16) -> Option<&Entry> {
        self.all(tag).next()
    }

    /// The entries of a tag, in the directory's order.
    pub fn all(&self, tag: u16) -> impl Iterator<Item = &Entry> {
        self.entries.iter().filter(move |entry| entry.tag == tag)
    }

    /// What an entry is called: by its tag, and a further one of the same tag
    /// as a later one.
    pub fn named(&self, entry: &Entry) -> String {
        let first = self.find(entry.tag).expect("an entry of the directory");
        if first.at == entry.at {
            entry.tag.to_string()
        } else {
            format!("a later {}", entry.tag)
        }
    }

    /// The value bytes of a present tag of a type from 1 to 12.
    pub fn bytes(&self, entry: &Entry) -> &'a [u8] {
        let value = entry.value().expect("rule 10 is kept");
        &self.file[index(value.start)..index(value.end)]
    }

    /// The value bytes of every entry whose tag is in the table, of types 1 to
    /// 12.
    pub fn listed_values(&self) -> Vec<(&Entry, Range<u64>)> {
        let in_table = |tag: u16| self.table.iter().any(|row| row.tag == tag);
        let entries = self.entries.iter().filter(|entry| in_table(entry.tag));
        entries.filter_map(|entry| Some((entry, entry.value()?))).collect()
    }

    /// Rule 6: each tag is greater than the one before, or equal to it where
    /// it may stand more than once.
    pub fn rule6(&self) -> Result<(), Refusal> {
        for (before, pair) in self.entries.windows(2).enumerate() {
            let tag = pair[1].tag;
            let may = self.rules.repeated.contains(&tag);
            if tag == pair[0].tag && !may {
                return refuse(6, u32::from(tag), "equal tag");
            }
            if tag < pair[0].tag {
                let again = may && self.entries[..before].iter().any(|entry| entry.tag == tag);
                let apart = format!("{tag} apart");
                return refuse(6, u32::from(tag), if again { &apart } else { "smaller tag" });
            }
        }
        Ok(())
    }

    /// Rule 7: every value of types 1 to 12 has elements and lies in the file.
    pub fn rule7(&self) -> Result<(), Refusal> {
        for entry in &self.entries {
            if let Some(what) = value_fault(entry, self.n()) {
                let name = self.named(entry);
                let clause = match name.starts_with("a later") {
                    true => format!("{name} {what}"),
                    false => format!("type {} {what}", entry.kind),
                };
                return refuse(7, u32::from(entry.tag), &clause);
            }
        }
        Ok(())
    }

    /// Rule 8: no further directory, where none may follow.
    pub fn rule8(&self) -> Result<(), Refusal> {
        if self.last && self.next != 0 {
            return refuse(8, 0, "next offset");
        }
        Ok(())
    }

    /// The families of which some tag is present.
    fn present(&self) -> Vec<Family> {
        let present = |family: &Family| family.tags().any(|tag| self.find(tag).is_some());
        self.rules.families.iter().copied().filter(present).collect()
    }

    /// Rule 27: tags of just one family are present, and that is the family.
    /// Where the rules know one alone there is nothing to ask.
    pub fn rule27(&self) -> Result<Family, Refusal> {
        match (self.rules.families, &self.present()[..]) {
            (&[family], _) | (_, &[family]) => Ok(family),
            (_, []) => refuse(27, 0, "neither family"),
            _ => refuse(27, 0, "both families"),
        }
    }
}

/// The families of which a file carries some tag; none where rules 1 to 5 leave
/// no directory to look in.
pub fn families(file: &[u8]) -> Option<Vec<Family>> {
    Some(Directory::open(file, IN_FORCE).ok()?.present())
}

/// Whether a file carries more than one 50909, of the directory that rules 1 to
/// 5 leave.
pub fn several_texts(file: &[u8]) -> bool {
    Directory::open(file, IN_FORCE).is_ok_and(|found| found.all(METADATA).count() > 1)
}

/// Whether the directory of a file, as rules 1 to 5 leave it, has a next offset.
pub fn leads_on(file: &[u8]) -> bool {
    Directory::open(file, IN_FORCE).is_ok_and(|found| found.next != 0)
}

/// Rules 1 to 3: the byte order and the directory's offset.
pub fn head(file: &[u8]) -> Result<(Order, u64), Refusal> {
    let n = file.len() as u64;
    if n < 8 {
        return refuse(1, 0, "n below 8");
    }
    if n > LONGEST {
        return refuse(1, 0, "n above 4294967295");
    }
    let order = match (file[0], file[1]) {
        (0x49, 0x49) => Order::Little,
        (0x4D, 0x4D) => Order::Big,
        _ => return refuse(2, 0, "neither order"),
    };
    if short(order, file, 2) != 42 {
        return refuse(3, 0, "not 42");
    }
    Ok((order, u64::from(long(order, file, 4))))
}

/// Rule 4: the directory's offset.
fn rule4(file: &[u8], at: u64) -> Result<(), Refusal> {
    if !at.is_multiple_of(2) {
        return refuse(4, 0, "odd");
    }
    if at < 8 {
        return refuse(4, 0, "below 8");
    }
    if at + 2 > file.len() as u64 {
        return refuse(4, 0, "past n");
    }
    Ok(())
}

/// Rule 5: the number of entries.
fn rule5(file: &[u8], order: Order, at: u64) -> Result<u64, Refusal> {
    let count = u64::from(short(order, file, at));
    if count == 0 {
        return refuse(5, 0, "c is 0");
    }
    if count > MOST_ENTRIES {
        return refuse(5, 0, "c above 1024");
    }
    if at + 2 + 12 * count + 4 > file.len() as u64 {
        return refuse(5, 0, "past n");
    }
    Ok(count)
}

fn entry(file: &[u8], order: Order, at: u64) -> Entry {
    Entry {
        at,
        tag: short(order, file, at),
        kind: short(order, file, at + 2),
        count: long(order, file, at + 4),
        offset: long(order, file, at + 8),
    }
}

/// What rule 7 finds wrong with an entry.
fn value_fault(entry: &Entry, n: u64) -> Option<&'static str> {
    let value = entry.value()?;
    if entry.count == 0 {
        return Some("count 0");
    }
    if entry.in_entry() {
        return None;
    }
    if value.start % 2 != 0 {
        return Some("odd");
    }
    if value.start < 8 {
        return Some("below 8");
    }
    if value.end > n {
        return Some("past n");
    }
    None
}
