//! The entries of the directory and the tags of the table: rules 6 to 12 and
//! 27.

use super::number::{long_at, short, short_at};
use super::{refuse, Refusal};

const BYTE: u32 = 1;
const ASCII: u32 = 2;
pub const SHORT: u32 = 3;
const LONG: u32 = 4;
const DOUBLE: u32 = 12;

/// The place of each tag of the table in the array, in ascending order.
pub mod slot {
    pub const WIDTH: usize = 0;
    pub const LENGTH: usize = 1;
    pub const BITS: usize = 2;
    pub const COMPRESSION: usize = 3;
    pub const PHOTOMETRIC: usize = 4;
    pub const STRIP_OFFSETS: usize = 5;
    pub const SAMPLES: usize = 6;
    pub const ROWS_PER_STRIP: usize = 7;
    pub const STRIP_BYTE_COUNTS: usize = 8;
    pub const PLANAR: usize = 9;
    pub const TILE_WIDTH: usize = 10;
    pub const TILE_LENGTH: usize = 11;
    pub const TILE_OFFSETS: usize = 12;
    pub const TILE_BYTE_COUNTS: usize = 13;
    pub const SCALE: usize = 14;
    pub const TIEPOINT: usize = 15;
    pub const MATRIX: usize = 16;
    pub const KEY_DIRECTORY: usize = 17;
    pub const DOUBLES: usize = 18;
    pub const CHARACTERS: usize = 19;
    pub const METADATA: usize = 20;
    pub const ALL: usize = 21;
    /// The tag 254 of a mask, which has no scale.
    pub const SUBFILE: usize = SCALE;
}

use slot::*;

/// The tags of the table, and one more that no entry has.
const TAGS: [u32; ALL + 1] = [
    256, 257, 258, 259, 262, 273, 277, 278, 279, 284, 322, 323, 324, 325, 33550, 33922, 34264,
    34735, 34736, 34737, 50909, 65_536,
];

/// The tags from 256 to 325 have their slots here, or `ALL` for none; those
/// from `SCALE` on are looked for in their order.
const FIRST: u32 = 256;
static NEAR: [u8; 70] = {
    let mut near = [ALL as u8; 70];
    let mut slot = 0;
    while slot < SCALE {
        near[(TAGS[slot] - FIRST) as usize] = slot as u8;
        slot += 1;
    }
    near
};

/// Slots as a set of bits.
const fn set(slots: &[usize]) -> u32 {
    let (mut set, mut at) = (0, 0);
    while at < slots.len() {
        set |= 1 << slots[at];
        at += 1;
    }
    set
}

/// The tags of the two families, and those that are needed in both, in an image
/// and in a mask.
const STRIPS: u32 = set(&[STRIP_OFFSETS, ROWS_PER_STRIP, STRIP_BYTE_COUNTS]);
const TILES: u32 = set(&[TILE_WIDTH, TILE_LENGTH, TILE_OFFSETS, TILE_BYTE_COUNTS]);
const PICTURE: u32 = set(&[WIDTH, LENGTH, BITS, COMPRESSION, PHOTOMETRIC, SAMPLES]);
const IN_IMAGE: u32 = PICTURE | set(&[KEY_DIRECTORY]);
const IN_MASK: u32 = PICTURE | set(&[SUBFILE]);

/// Rules 27 and 9 where neither family is there whole and alone, or another
/// needed tag is absent.
#[cold]
#[inline(never)]
fn rule27or9<T>(present: u32, needed: u32) -> Result<T, Refusal> {
    let family = match (present & STRIPS != 0, present & TILES != 0) {
        (true, false) => STRIPS,
        (false, true) => TILES,
        _ => return refuse(27, 0),
    };
    let missing = (needed | family) & !present;
    refuse(9, TAGS[missing.trailing_zeros() as usize])
}

/// An entry of the table as the pass over the directory leaves it.
#[derive(Clone, Copy, Default)]
pub struct Entry {
    pub kind: u32,
    pub count: u32,
    /// The entry's last four bytes as a LONG.
    field: u32,
    /// The first byte of the value in the file.
    pub at: u32,
}

impl Entry {
    /// Whether the entry has this type and so many elements.
    #[inline(always)]
    fn is(&self, kind: u32, count: u32) -> bool {
        self.kind == kind && self.count == count
    }

    #[inline(always)]
    fn is_number(&self) -> bool {
        self.kind == SHORT || self.kind == LONG
    }

    /// The one number of an entry of count 1, from its last four bytes.
    #[inline(always)]
    fn number<const BIG: bool>(&self) -> u32 {
        match (self.kind == SHORT, BIG) {
            (true, true) => self.field >> 16,
            (true, false) => self.field & 0xFFFF,
            _ => self.field,
        }
    }
}

/// The tags of the table, and the parts of the reading list from the
/// directory on: each its first byte and the byte behind it. The last part is
/// room for a value that does not count.
pub struct Tags {
    entries: [Entry; ALL],
    present: u32,
    parts: [(u32, u32); ALL + 2],
    used: usize,
    /// From which entry of the directory to which the metadata tag stands
    /// behind its first; none if the second number is 0.
    later: (u32, u32),
    pub width: u32,
    pub length: u32,
}

/// The sizes of types 1 to 12 as powers of two.
static SIZES: [u8; 12] = [0, 0, 1, 2, 3, 0, 0, 1, 2, 3, 2, 3];

/// Rule 7: the byte behind a value that stands at its offset, 0 for one that
/// is in its entry or has no bytes, none if the rule is broken.
#[inline(always)]
fn value_end(kind: u32, count: u32, offset: u32, n: u64) -> Option<u64> {
    let Some(power) = SIZES.get(kind.wrapping_sub(1) as usize) else { return Some(0) };
    let size = u64::from(count) << power;
    if size > 4 {
        let end = u64::from(offset) + size;
        if !offset.is_multiple_of(2) || offset < 8 || end > n {
            return None;
        }
        return Some(end);
    }
    if size == 0 {
        return None;
    }
    Some(0)
}

/// Rule 6: whether a tag may not stand behind another.
#[inline(always)]
fn unordered(last: u32, tag: u32) -> bool {
    tag <= last && (tag < last || tag != TAGS[METADATA])
}

/// Rule 6 for the entries behind one that breaks rule 7.
#[cold]
#[inline(never)]
fn rule7<T, const BIG: bool>(rest: &[[u8; 12]], tag: u32) -> Result<T, Refusal> {
    let mut last = tag;
    for entry in rest {
        let later = u32::from(short_at::<BIG, 12>(entry, 0));
        if unordered(last, later) {
            return refuse(6, later);
        }
        last = later;
    }
    refuse(7, tag)
}

/// Type, count and offset of a further metadata tag.
#[inline(always)]
fn fields<const BIG: bool>(entry: &[u8; 12]) -> (u32, u32, u32) {
    let kind = u32::from(short_at::<BIG, 12>(entry, 2));
    (kind, long_at::<BIG, 12>(entry, 4), long_at::<BIG, 12>(entry, 8))
}

/// The first byte and the end of the value of a further metadata tag of type
/// BYTE; one in its entry is in the directory, and none here.
#[inline(always)]
pub fn later_value<const BIG: bool>(entry: &[u8; 12]) -> Option<(u64, u64)> {
    let (_, count, at) = fields::<BIG>(entry);
    (count > 4).then(|| (u64::from(at), u64::from(at) + u64::from(count)))
}

impl Tags {
    /// No tags yet, of a directory at `at` with `count` entries.
    #[inline(always)]
    pub fn new(at: u32, count: u32) -> Self {
        let mut parts = [(0, 0); ALL + 2];
        parts[0] = (at, at + 2 + 12 * count + 4);
        let entries = [Entry::default(); ALL];
        Tags { entries, present: 0, parts, used: 1, later: (0, 0), width: 0, length: 0 }
    }

    /// Rules 6 and 7.
    #[inline(always)]
    pub fn rules6and7<const BIG: bool, const MASK: bool>(
        &mut self,
        n: u64,
        entries: &[[u8; 12]],
    ) -> Result<(), Refusal> {
        match self.ascending::<BIG, MASK>(n, entries) {
            Err(refusal) => self.rest::<BIG, MASK>(n, entries, refusal),
            Ok(()) => Ok(()),
        }
    }

    /// Rules 27 and 9; whether the pieces are tiles.
    #[inline(always)]
    pub fn rules27and9<const MASK: bool>(&self) -> Result<bool, Refusal> {
        let needed = if MASK { IN_MASK } else { IN_IMAGE };
        match self.present & (needed | STRIPS | TILES) {
            found if found == needed | STRIPS => Ok(false),
            found if found == needed | TILES => Ok(true),
            _ => rule27or9(self.present, needed),
        }
    }

    /// Rules 10 to 12. The width and the length of a mask are said before.
    #[inline(always)]
    pub fn rules10to12<const BIG: bool, const TILED: bool, const MASK: bool>(
        &mut self,
        file: &[u8],
    ) -> Result<(), Refusal> {
        self.rule10::<TILED, MASK>()?;
        if MASK {
            self.rule11_of_mask::<BIG>(file)?;
        }
        self.rule11::<BIG, TILED, MASK>(file)?;
        self.rule12::<BIG, TILED>(file)
    }

    /// Rules 6 and 7 where no tag stands twice; what the entries of the table say
    /// is kept.
    #[inline(always)]
    fn ascending<const BIG: bool, const MASK: bool>(
        &mut self,
        n: u64,
        entries: &[[u8; 12]],
    ) -> Result<(), Refusal> {
        let (mut last, mut far, mut used, mut present) = (-1, SCALE, 1, 0);
        let mut here = self.parts[0].0 + 10;
        let mut rest = entries.iter();
        while let Some(entry) = rest.next() {
            let tag = u32::from(short_at::<BIG, 12>(entry, 0));
            if tag as i32 <= last {
                (self.used, self.present) = (used, present);
                return refuse(6, tag);
            }
            last = tag as i32;
            let slot = match NEAR.get(tag.wrapping_sub(FIRST) as usize) {
                Some(&near) => usize::from(near),
                None if MASK => {
                    if tag == 254 {
                        SUBFILE
                    } else {
                        ALL
                    }
                }
                None => {
                    // tags ascend, and so does the place in the table
                    while TAGS[far] < tag {
                        far += 1;
                    }
                    if TAGS[far] == tag {
                        far
                    } else {
                        ALL
                    }
                }
            };
            let known = slot < ALL;
            let kind = u32::from(short_at::<BIG, 12>(entry, 2));
            let count = long_at::<BIG, 12>(entry, 4);
            let field = long_at::<BIG, 12>(entry, 8);
            let Some(end) = value_end(kind, count, field, n) else {
                return rule7::<_, BIG>(rest.as_slice(), tag);
            };
            let mut at = here;
            here = here.wrapping_add(12);
            if end != 0 {
                at = field;
                self.parts[used] = (at, end as u32);
                used += usize::from(known);
            }
            if known {
                self.entries[slot] = Entry { kind, count, field, at };
                present |= 1 << slot;
            }
        }
        (self.used, self.present) = (used, present);
        Ok(())
    }

    /// Rules 6 and 7 once more where the pass met a metadata tag that is not
    /// greater than the tag before, from that entry on: further metadata tags,
    /// then tags outside the table. One of another type than BYTE makes the
    /// first one such, for rule 10. In a mask all of them are outside the table.
    #[cold]
    #[inline(never)]
    fn rest<const BIG: bool, const MASK: bool>(
        &mut self,
        n: u64,
        entries: &[[u8; 12]],
        refusal: Refusal,
    ) -> Result<(), Refusal> {
        if refusal.rule != 6 || refusal.place != TAGS[METADATA] {
            return Err(refusal);
        }
        let tag_of = |entry: &[u8; 12]| u32::from(short_at::<BIG, 12>(entry, 0));
        let ascends = |pair: &[[u8; 12]]| tag_of(&pair[0]) < tag_of(&pair[1]);
        let start = 1 + entries.windows(2).take_while(|pair| ascends(pair)).count();
        let mut last = tag_of(&entries[start - 1]);
        for (at, entry) in entries.iter().enumerate().skip(start) {
            let tag = tag_of(entry);
            if unordered(last, tag) {
                return refuse(6, tag);
            }
            let (kind, count, field) = fields::<BIG>(entry);
            if value_end(kind, count, field, n).is_none() {
                return rule7::<_, BIG>(&entries[at + 1..], tag);
            }
            if tag == last && !MASK {
                self.later = (start as u32, at as u32 + 1);
                if kind != BYTE {
                    self.entries[METADATA].kind = kind;
                }
            }
            last = tag;
        }
        Ok(())
    }

    /// Rule 10, lowest tag first. By rule 7 no known type has count 0.
    #[inline(always)]
    fn rule10<const TILED: bool, const MASK: bool>(&self) -> Result<(), Refusal> {
        let fault = match self.fault_of_picture::<TILED>() {
            0 if MASK => 254 * u32::from(!self.entries[SUBFILE].is(LONG, 1)),
            0 => self.fault_of_rest(),
            tag => tag,
        };
        if fault != 0 {
            return refuse(10, fault);
        }
        Ok(())
    }

    /// The lowest tag from 256 to 325 that breaks rule 10, or 0.
    #[inline(always)]
    fn fault_of_picture<const TILED: bool>(&self) -> u32 {
        let e = &self.entries;
        let one = |slot: usize| e[slot].is_number() && e[slot].count == 1;
        if !one(WIDTH) {
            256
        } else if !one(LENGTH) {
            257
        } else if e[BITS].kind != SHORT {
            258
        } else if !e[COMPRESSION].is(SHORT, 1) {
            259
        } else if !e[PHOTOMETRIC].is(SHORT, 1) {
            262
        } else if !TILED && !e[STRIP_OFFSETS].is_number() {
            273
        } else if !e[SAMPLES].is(SHORT, 1) {
            277
        } else if !TILED && !one(ROWS_PER_STRIP) {
            278
        } else if !TILED && !e[STRIP_BYTE_COUNTS].is_number() {
            279
        } else if self.has(PLANAR) && !e[PLANAR].is(SHORT, 1) {
            284
        } else if TILED && !one(TILE_WIDTH) {
            322
        } else if TILED && !one(TILE_LENGTH) {
            323
        } else if TILED && e[TILE_OFFSETS].kind != LONG {
            324
        } else if TILED && !e[TILE_BYTE_COUNTS].is_number() {
            325
        } else {
            0
        }
    }

    /// The lowest tag from 33550 on that breaks rule 10, or 0.
    #[inline(always)]
    fn fault_of_rest(&self) -> u32 {
        let e = &self.entries;
        let lacks = |slot: usize| !self.has(slot);
        if !(lacks(SCALE) || e[SCALE].is(DOUBLE, 3)) {
            33550
        } else if !(lacks(TIEPOINT) || e[TIEPOINT].is(DOUBLE, 6)) {
            33922
        } else if !(lacks(MATRIX) || e[MATRIX].is(DOUBLE, 16)) {
            34264
        } else if e[KEY_DIRECTORY].kind != SHORT || e[KEY_DIRECTORY].count < 4 {
            34735
        } else if !(lacks(DOUBLES) || e[DOUBLES].kind == DOUBLE) {
            34736
        } else if !(lacks(CHARACTERS) || e[CHARACTERS].kind == ASCII) {
            34737
        } else if !(lacks(METADATA) || e[METADATA].kind == BYTE) {
            50909
        } else {
            0
        }
    }

    pub fn has(&self, slot: usize) -> bool {
        self.present >> slot & 1 == 1
    }

    pub fn entry(&self, slot: usize) -> &Entry {
        &self.entries[slot]
    }

    /// The directory and every value of the table that is not inside it.
    #[inline(always)]
    pub fn parts(&self) -> &[(u32, u32)] {
        &self.parts[..self.used]
    }

    /// Whether the metadata tag stands more than once.
    #[inline(always)]
    pub fn several(&self) -> bool {
        self.later.1 != 0
    }

    /// The entries of the metadata tag behind its first.
    pub fn later<'f>(&self, file: &'f [u8]) -> &'f [[u8; 12]] {
        let place = |entry: u32| (self.parts[0].0 + 2 + 12 * entry) as usize;
        file[place(self.later.0)..place(self.later.1)].as_chunks::<12>().0
    }

    /// The bytes of a present tag with elements of `size` bytes.
    #[inline(always)]
    pub fn value<'f>(&self, file: &'f [u8], slot: usize, size: usize) -> &'f [u8] {
        let entry = &self.entries[slot];
        let at = entry.at as usize;
        &file[at..at + size * entry.count as usize]
    }

    #[inline(always)]
    fn number<const BIG: bool>(&self, slot: usize) -> u32 {
        self.entries[slot].number::<BIG>()
    }

    #[inline(always)]
    fn bits<'f>(&self, file: &'f [u8]) -> &'f [[u8; 2]] {
        self.value(file, BITS, 2).as_chunks::<2>().0
    }

    /// Rule 11 where a mask has another value; the place is not the lowest.
    #[inline(always)]
    fn rule11_of_mask<const BIG: bool>(&self, file: &[u8]) -> Result<(), Refusal> {
        let is = |slot: usize, number: u32| self.number::<BIG>(slot) == number;
        let kept = is(SUBFILE, 4)
            && is(WIDTH, self.width)
            && is(LENGTH, self.length)
            && self.bits(file).iter().all(|two| short::<BIG>(*two) == 1)
            && is(PHOTOMETRIC, 4)
            && is(SAMPLES, 1);
        if kept {
            Ok(())
        } else {
            refuse(11, 0)
        }
    }

    /// Rule 11, lowest tag first; a mask has 4 for 262 besides.
    #[inline(always)]
    fn rule11<const BIG: bool, const TILED: bool, const MASK: bool>(
        &mut self,
        file: &[u8],
    ) -> Result<(), Refusal> {
        let number = |slot: usize| self.number::<BIG>(slot);
        (self.width, self.length) = (number(WIDTH), number(LENGTH));
        let number = |slot: usize| self.number::<BIG>(slot);
        let no_sixteens = |slot: usize| number(slot) == 0 || !number(slot).is_multiple_of(16);
        let depth = |two: &[u8; 2]| matches!(short::<BIG>(*two), 1 | 8 | 16 | 32);
        let fault = if self.width.wrapping_sub(1) >= 1_000_000 {
            256
        } else if self.length.wrapping_sub(1) >= 1_000_000 {
            257
        } else if !self.bits(file).iter().all(depth) {
            258
        } else if !matches!(number(COMPRESSION), 1 | 2 | 32773) {
            259
        } else if number(PHOTOMETRIC) > 3 + u32::from(MASK) {
            262
        } else if number(SAMPLES).wrapping_sub(1) >= 8 {
            277
        } else if !TILED && number(ROWS_PER_STRIP) == 0 {
            278
        } else if self.has(PLANAR) && number(PLANAR) != 1 {
            284
        } else if TILED && no_sixteens(TILE_WIDTH) {
            322
        } else if TILED && no_sixteens(TILE_LENGTH) {
            323
        } else {
            return Ok(());
        };
        refuse(11, fault)
    }

    /// Rule 12, lowest tag first.
    #[inline(always)]
    fn rule12<const BIG: bool, const TILED: bool>(&self, file: &[u8]) -> Result<(), Refusal> {
        let samples = self.number::<BIG>(SAMPLES);
        let bits = self.bits(file);
        if bits.len() as u32 != samples || bits[1..].iter().any(|other| *other != bits[0]) {
            return refuse(12, 258);
        }
        let packed = self.number::<BIG>(COMPRESSION) != 1;
        if packed && (samples != 1 || short::<BIG>(bits[0]) != 1) {
            return refuse(12, 259);
        }
        if TILED {
            return self.counts_of_tiles::<BIG>();
        }
        let rows = u64::from(self.number::<BIG>(ROWS_PER_STRIP));
        // count = length / rows, rounded up, without a division
        let length = u64::from(self.length);
        let fits = |slot: usize| {
            let count = u64::from(self.entries[slot].count);
            (count - 1) * rows < length && length <= count * rows
        };
        if !fits(STRIP_OFFSETS) {
            return refuse(12, 273);
        }
        if !fits(STRIP_BYTE_COUNTS) {
            return refuse(12, 279);
        }
        Ok(())
    }

    /// Rule 12 for the tiles: at most 62,500 across and as many down.
    #[inline(always)]
    fn counts_of_tiles<const BIG: bool>(&self) -> Result<(), Refusal> {
        let across = self.width.div_ceil(self.number::<BIG>(TILE_WIDTH));
        let tiles = across * self.length.div_ceil(self.number::<BIG>(TILE_LENGTH));
        if self.entries[TILE_OFFSETS].count != tiles {
            return refuse(12, 324);
        }
        if self.entries[TILE_BYTE_COUNTS].count != tiles {
            return refuse(12, 325);
        }
        Ok(())
    }
}
