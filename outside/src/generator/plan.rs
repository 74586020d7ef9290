//! The plan of a file: its byte order, its entries with their values, the
//! pieces of its picture and the order of its parts; laid out to bytes on
//! demand. The plan of a mask has that of the image with it.

use super::keyplan::Encoded;
use super::prng::Random;
use crate::reader::tables::Family;
use crate::reader::Order;
use std::ops::Deref;

/// What an entry's value is, before the byte order is chosen.
#[derive(Clone, Debug)]
pub enum Value {
    Bytes(Vec<u8>),
    Shorts(Vec<u16>),
    Longs(Vec<u32>),
    Doubles(Vec<u64>),
    /// The offsets of the pieces, as LONG or as SHORT.
    Offsets {
        wide: bool,
    },
    /// The last four bytes of the entry as they are; no value elsewhere.
    Field([u8; 4]),
}

/// One planned entry.
#[derive(Clone, Debug)]
pub struct Tag {
    pub tag: u16,
    pub kind: u16,
    pub count: u32,
    pub value: Value,
}

impl Tag {
    pub fn bytes(tag: u16, kind: u16, bytes: &[u8]) -> Self {
        Tag { tag, kind, count: bytes.len() as u32, value: Value::Bytes(bytes.to_vec()) }
    }

    pub fn shorts(tag: u16, numbers: &[u16]) -> Self {
        Tag { tag, kind: 3, count: numbers.len() as u32, value: Value::Shorts(numbers.to_vec()) }
    }

    pub fn longs(tag: u16, numbers: &[u32]) -> Self {
        Tag { tag, kind: 4, count: numbers.len() as u32, value: Value::Longs(numbers.to_vec()) }
    }

    /// The numbers as LONG if `wide`, else as SHORT.
    pub fn numbers(tag: u16, wide: bool, numbers: &[u32]) -> Self {
        if wide {
            return Tag::longs(tag, numbers);
        }
        let short = |number: &u32| u16::try_from(*number).expect("a SHORT");
        Tag::shorts(tag, &numbers.iter().map(short).collect::<Vec<u16>>())
    }

    pub fn doubles(tag: u16, doubles: &[f64]) -> Self {
        let bits: Vec<u64> = doubles.iter().map(|double| double.to_bits()).collect();
        Tag::double_bits(tag, &bits)
    }

    pub fn double_bits(tag: u16, bits: &[u64]) -> Self {
        Tag { tag, kind: 12, count: bits.len() as u32, value: Value::Doubles(bits.to_vec()) }
    }

    /// An entry with any type, count and last four bytes.
    pub fn raw(tag: u16, kind: u16, count: u32, field: [u8; 4]) -> Self {
        Tag { tag, kind, count, value: Value::Field(field) }
    }
}

/// A part of the file that takes its own place in it.
#[derive(Clone, Copy, Debug, PartialEq, Eq)]
pub enum Part {
    Directory,
    /// That of the planned entry at this place.
    Value(usize),
    /// A strip or a tile.
    Piece(usize),
    /// The same of the image, in the plan of a mask.
    ImageDirectory,
    ImageValue(usize),
    ImagePiece(usize),
}

impl Part {
    /// What the part of an image's own plan is in the plan of its mask.
    fn of_image(self) -> Self {
        match self {
            Part::Directory => Part::ImageDirectory,
            Part::Value(at) => Part::ImageValue(at),
            Part::Piece(at) => Part::ImagePiece(at),
            other => other,
        }
    }
}

/// The description of a file.
#[derive(Clone, Debug)]
pub struct Plan {
    pub order: Order,
    pub tags: Vec<Tag>,
    /// The byte count of each piece.
    pub pieces: Vec<u32>,
    /// Parts that come first and last; the others stand between them.
    pub first: Vec<Part>,
    pub last: Vec<Part>,
    /// The order of the parts between, if it is not the natural one.
    pub shuffle: Option<u64>,
    /// The fewest and the most free bytes before each part.
    pub gap: (u64, u64),
    /// The seed of all free bytes; pieces are always filled from it.
    pub fill: u64,
    /// Whether free bytes are random; else they are 0.
    pub dirty: bool,
    /// In the plan of a mask, the image: its tags and its pieces count.
    pub image: Option<Box<Plan>>,
}

impl Plan {
    /// A plan without tags: the natural order of parts, no free bytes, zeros.
    pub fn new(order: Order) -> Self {
        Plan {
            order,
            tags: Vec::new(),
            pieces: Vec::new(),
            first: Vec::new(),
            last: Vec::new(),
            shuffle: None,
            gap: (0, 0),
            fill: 0,
            dirty: false,
            image: None,
        }
    }

    /// The mask of an image, without its pieces: of the same width and length, with
    /// the parts of both in the image's order.
    pub fn mask_of(image: Plan) -> Self {
        let mut mask = Plan { tags: Vec::new(), pieces: Vec::new(), ..image.clone() };
        mask.set(Tag::longs(254, &[4]));
        for tag in [256, 257] {
            mask.set(image.tags.iter().find(|known| known.tag == tag).expect("a size").clone());
        }
        for (tag, number) in [(258, 1), (259, 1), (262, 4), (277, 1)] {
            mask.set(Tag::shorts(tag, &[number]));
        }
        mask.image = Some(Box::new(image));
        mask
    }

    /// Sets a tag, and in the plan of a mask that of the image too.
    pub fn set_both(&mut self, tag: Tag) {
        if let Some(image) = &mut self.image {
            image.set(tag.clone());
        }
        self.set(tag);
    }

    pub fn find(&mut self, tag: u16) -> &mut Tag {
        self.tags.iter_mut().find(|known| known.tag == tag).expect("a planned tag")
    }

    /// Adds the tag in its place, or replaces the one with its number.
    pub fn set(&mut self, tag: Tag) {
        self.remove(tag.tag);
        let at = self.tags.iter().filter(|known| known.tag < tag.tag).count();
        self.tags.insert(at, tag);
    }

    /// Adds the tag in its place, behind those with its number.
    pub fn add(&mut self, tag: Tag) {
        let at = self.tags.iter().filter(|known| known.tag <= tag.tag).count();
        self.tags.insert(at, tag);
    }

    pub fn remove(&mut self, tag: u16) {
        self.tags.retain(|known| known.tag != tag);
    }

    /// Sets the pieces and the two tags of a family that tell where they are;
    /// offsets and byte counts are LONG where `wide` says so, else SHORT.
    pub fn set_pieces(&mut self, family: Family, counts: &[u32], wide: (bool, bool)) {
        let (offsets, byte_counts) = family.places();
        self.pieces = counts.to_vec();
        self.set(Tag {
            tag: offsets,
            kind: if wide.0 { 4 } else { 3 },
            count: counts.len() as u32,
            value: Value::Offsets { wide: wide.0 },
        });
        self.set(Tag::numbers(byte_counts, wide.1, counts));
    }

    /// Sets 34735, and 34736 and 34737 where there is something in them.
    pub fn set_keys(&mut self, keys: &Encoded) {
        self.set(Tag::shorts(34735, &keys.directory));
        self.remove(34736);
        self.remove(34737);
        if !keys.doubles.is_empty() {
            self.set(Tag::double_bits(34736, &keys.doubles));
        }
        if !keys.characters.is_empty() {
            self.set(Tag::bytes(34737, 2, &keys.characters));
        }
    }

    /// Puts this minor revision into the header of the planned keys.
    pub fn set_minor(&mut self, minor: u16) {
        match &mut self.find(34735).value {
            Value::Shorts(numbers) => numbers[2] = minor,
            other => panic!("a key directory of {other:?}"),
        }
    }

    /// The size in bytes of a value as planned.
    fn size(&self, tag: &Tag) -> usize {
        match &tag.value {
            Value::Bytes(bytes) => bytes.len(),
            Value::Shorts(numbers) => 2 * numbers.len(),
            Value::Longs(numbers) => 4 * numbers.len(),
            Value::Doubles(doubles) => 8 * doubles.len(),
            Value::Offsets { wide } => tag.count as usize * if *wide { 4 } else { 2 },
            Value::Field(_) => 4,
        }
    }

    /// The directory, the values outside their entries and the pieces.
    fn own_parts(&self) -> Vec<Part> {
        let mut parts = vec![Part::Directory];
        let long = (0..self.tags.len()).filter(|&at| self.size(&self.tags[at]) > 4);
        parts.extend(long.map(Part::Value));
        parts.extend((0..self.pieces.len()).map(Part::Piece));
        parts
    }

    /// All parts in the order they take in the file.
    fn parts(&self) -> Vec<Part> {
        let mut between = self.own_parts();
        if let Some(image) = &self.image {
            between.extend(image.own_parts().into_iter().map(Part::of_image));
        }
        if let Some(seed) = self.shuffle {
            Random::new(seed).shuffle(&mut between);
        }
        between.retain(|part| !self.first.contains(part) && !self.last.contains(part));
        [self.first.clone(), between, self.last.clone()].concat()
    }

    fn part_size(&self, part: Part) -> usize {
        match part {
            Part::Directory => 2 + 12 * self.tags.len() + 4,
            Part::Value(at) => self.size(&self.tags[at]),
            Part::Piece(piece) => self.pieces[piece] as usize,
            Part::ImageDirectory => self.its_image().part_size(Part::Directory),
            Part::ImageValue(at) => self.its_image().part_size(Part::Value(at)),
            Part::ImagePiece(piece) => self.its_image().part_size(Part::Piece(piece)),
        }
    }

    /// The image, where this is the plan of a mask.
    pub fn its_image(&self) -> &Plan {
        self.image.as_deref().expect("the plan of a mask")
    }

    /// Lays the file out to bytes.
    pub fn lay(&self) -> Laid {
        let mut random = Random::new(self.fill);
        let mut starts = Vec::new();
        let mut end = 8;
        for part in self.parts() {
            end += random.within(self.gap.0, self.gap.1) as usize;
            if !matches!(part, Part::Piece(_) | Part::ImagePiece(_)) {
                end += end % 2;
            }
            starts.push((part, end));
            end += self.part_size(part);
        }
        end += random.within(self.gap.0, self.gap.1) as usize;
        let bytes = if self.dirty { random.bytes(end) } else { vec![0; end] };
        let mut laid = Laid::new(self, bytes, &starts);
        let of_image = laid.image.iter().flat_map(|image| &image.pieces);
        for (at, count) in laid.pieces.iter().chain(of_image).copied().collect::<Vec<_>>() {
            let picture = random.bytes(count as usize);
            laid.bytes[at as usize..(at + count) as usize].copy_from_slice(&picture);
        }
        laid.write(self);
        laid
    }
}

/// Where an entry of a laid out file and its value stand.
#[derive(Clone, Debug)]
pub struct Spot {
    pub tag: u16,
    pub entry: usize,
    pub value: usize,
    pub size: usize,
}

/// Where a directory with its values and its pieces stands.
#[derive(Clone, Debug)]
pub struct Sheet {
    pub directory: usize,
    pub spots: Vec<Spot>,
    /// Offset and byte count of each piece.
    pub pieces: Vec<(u32, u32)>,
}

/// A file laid out, with the places of its parts, so that a case can change
/// single fields in the file's own byte order. What is asked of it as of a sheet
/// is that of the plan: the image's, or the mask's where there is one.
#[derive(Clone, Debug)]
pub struct Laid {
    pub order: Order,
    pub bytes: Vec<u8>,
    pub sheet: Sheet,
    /// The image's, where the sheet is a mask's.
    pub image: Option<Sheet>,
}

impl Deref for Laid {
    type Target = Sheet;

    fn deref(&self) -> &Sheet {
        &self.sheet
    }
}

impl Sheet {
    /// Of a plan whose parts start where `start` says.
    fn new(plan: &Plan, start: impl Fn(Part) -> Option<usize>) -> Self {
        let directory = start(Part::Directory).expect("a directory");
        let spot = |(at, tag): (usize, &Tag)| {
            let entry = directory + 2 + 12 * at;
            let value = start(Part::Value(at)).unwrap_or(entry + 8);
            Spot { tag: tag.tag, entry, value, size: plan.size(tag) }
        };
        let piece = |at: usize| start(Part::Piece(at)).expect("a piece") as u32;
        Sheet {
            directory,
            spots: plan.tags.iter().enumerate().map(spot).collect(),
            pieces: (0..plan.pieces.len()).map(|at| (piece(at), plan.pieces[at])).collect(),
        }
    }

    /// Where the next offset stands.
    pub fn next(&self) -> usize {
        self.directory + 2 + 12 * self.spots.len()
    }

    /// Whether the pieces are tiles.
    pub fn tiled(&self) -> bool {
        self.spots.iter().any(|spot| spot.tag == Family::Tiles.places().0)
    }

    /// The spots of the pieces' offsets and byte counts.
    pub fn places(&self) -> (Spot, Spot) {
        let family = if self.tiled() { Family::Tiles } else { Family::Strips };
        let (offsets, byte_counts) = family.places();
        (self.spot(offsets), self.spot(byte_counts))
    }

    /// The spot of a tag; of one that stands more than once, the first.
    pub fn spot(&self, tag: u16) -> Spot {
        self.spots.iter().find(|spot| spot.tag == tag).expect("a laid out tag").clone()
    }

    /// The spots of a tag, in the directory's order.
    pub fn all(&self, tag: u16) -> Vec<Spot> {
        self.spots.iter().filter(|spot| spot.tag == tag).cloned().collect()
    }
}

impl Laid {
    fn new(plan: &Plan, bytes: Vec<u8>, starts: &[(Part, usize)]) -> Self {
        let start = |wanted: Part| starts.iter().find(|(part, _)| *part == wanted).map(|s| s.1);
        let sheet = Sheet::new(plan, start);
        let its = |image: &Plan| Sheet::new(image, |part| start(part.of_image()));
        Laid { order: plan.order, bytes, sheet, image: plan.image.as_deref().map(its) }
    }

    /// Writes the head, and each directory with all its values.
    fn write(&mut self, plan: &Plan) {
        let mark = if self.order == Order::Little { 0x49 } else { 0x4D };
        self.bytes[..2].copy_from_slice(&[mark, mark]);
        self.put_short(2, 42);
        if let (Some(plan), Some(image)) = (&plan.image, self.image.clone()) {
            self.put_long(4, image.directory as u32);
            self.write_sheet(plan, &image);
        }
        self.put_long(self.pointer(), self.directory as u32);
        self.write_sheet(plan, &self.sheet.clone());
    }

    fn write_sheet(&mut self, plan: &Plan, sheet: &Sheet) {
        self.put_short(sheet.directory, plan.tags.len() as u16);
        for (spot, tag) in sheet.spots.iter().zip(&plan.tags) {
            self.put_short(spot.entry, tag.tag);
            self.put_short(spot.entry + 2, tag.kind);
            self.put_long(spot.entry + 4, tag.count);
            if spot.size > 4 {
                self.put_long(spot.entry + 8, spot.value as u32);
            }
            self.write_value(sheet, spot, tag);
        }
        self.put_long(sheet.next(), 0);
    }

    fn write_value(&mut self, sheet: &Sheet, spot: &Spot, tag: &Tag) {
        let at = spot.value;
        match &tag.value {
            Value::Bytes(bytes) => self.bytes[at..at + bytes.len()].copy_from_slice(bytes),
            Value::Field(field) => self.bytes[at..at + 4].copy_from_slice(field),
            Value::Shorts(numbers) => {
                numbers.iter().enumerate().for_each(|(i, &n)| self.put_short(at + 2 * i, n));
            }
            Value::Longs(numbers) => {
                numbers.iter().enumerate().for_each(|(i, &n)| self.put_long(at + 4 * i, n));
            }
            Value::Doubles(doubles) => {
                doubles.iter().enumerate().for_each(|(i, &d)| self.put_double(at + 8 * i, d));
            }
            Value::Offsets { wide } => {
                for i in 0..tag.count as usize {
                    let offset = sheet.pieces[i.min(sheet.pieces.len() - 1)].0;
                    self.put_number(at, *wide, i, offset);
                }
            }
        }
    }

    pub fn n(&self) -> usize {
        self.bytes.len()
    }

    /// Where the offset of the directory stands: in the head, or behind the image's.
    pub fn pointer(&self) -> usize {
        self.image.as_ref().map_or(4, Sheet::next)
    }

    /// The same file, with a mask or not, to be asked of as one of its image.
    pub fn turned(self) -> Self {
        let sheet = self.image.unwrap_or(self.sheet);
        Laid { sheet, image: None, ..self }
    }

    /// The image's sheet, where this is a file with a mask.
    pub fn its_image(&self) -> Sheet {
        self.image.clone().expect("a mask's image")
    }

    pub fn put_short(&mut self, at: usize, number: u16) {
        let bytes = match self.order {
            Order::Little => number.to_le_bytes(),
            Order::Big => number.to_be_bytes(),
        };
        self.bytes[at..at + 2].copy_from_slice(&bytes);
    }

    pub fn put_long(&mut self, at: usize, number: u32) {
        let bytes = match self.order {
            Order::Little => number.to_le_bytes(),
            Order::Big => number.to_be_bytes(),
        };
        self.bytes[at..at + 4].copy_from_slice(&bytes);
    }

    pub fn put_double(&mut self, at: usize, bits: u64) {
        let bytes = match self.order {
            Order::Little => bits.to_le_bytes(),
            Order::Big => bits.to_be_bytes(),
        };
        self.bytes[at..at + 8].copy_from_slice(&bytes);
    }

    pub fn put_number(&mut self, at: usize, wide: bool, i: usize, number: u32) {
        if wide {
            self.put_long(at + 4 * i, number);
        } else {
            self.put_short(at + 2 * i, u16::try_from(number).expect("a SHORT"));
        }
    }
}
