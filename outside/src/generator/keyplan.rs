//! The plan of the keys: what each key holds, encoded to the numbers of the
//! key directory, the doubles and the characters.

use super::prng::Random;

/// What a key holds, and so its location.
#[derive(Clone, Debug)]
pub enum Held {
    /// Location 0.
    Number(u16),
    /// Location 34735.
    Array(Vec<u16>),
    /// Location 34736, by bits.
    Doubles(Vec<u64>),
    /// Location 34737.
    Text(Vec<u8>),
    /// Any location, count and fourth number.
    Raw(u16, u16, u16),
}

/// The keys of a file, in ascending order of their numbers.
#[derive(Clone, Debug, Default)]
pub struct Keys {
    pub list: Vec<(u16, Held)>,
    /// A value found among the elements already placed is not placed again.
    pub share: bool,
    /// The order in which values are placed, if not the order of the keys.
    pub placing: Option<u64>,
    /// Unused elements before the values of each location.
    pub spare: (Vec<u16>, Vec<u64>, Vec<u8>),
}

/// The elements of 34735, 34736 and 34737.
#[derive(Clone, Debug, PartialEq, Eq)]
pub struct Encoded {
    pub directory: Vec<u16>,
    pub doubles: Vec<u64>,
    pub characters: Vec<u8>,
}

/// Where `value` stands in `pool`; it is added at the end if need be.
fn place<T: PartialEq + Clone>(pool: &mut Vec<T>, from: usize, value: &[T], share: bool) -> u16 {
    if share && !value.is_empty() {
        if let Some(at) = pool[from..].windows(value.len()).position(|run| run == value) {
            return (from + at) as u16;
        }
    }
    let start = pool.len();
    pool.extend_from_slice(value);
    start as u16
}

impl Keys {
    /// Adds the key in its place, or replaces the one with its number.
    pub fn set(&mut self, key: u16, held: Held) {
        self.remove(key);
        let at = self.list.iter().filter(|known| known.0 < key).count();
        self.list.insert(at, (key, held));
    }

    pub fn remove(&mut self, key: u16) {
        self.list.retain(|known| known.0 != key);
    }

    pub fn with(mut self, key: u16, held: Held) -> Self {
        self.set(key, held);
        self
    }

    pub fn without(mut self, key: u16) -> Self {
        self.remove(key);
        self
    }

    /// The elements, of minor revision 0.
    pub fn encode(&self) -> Encoded {
        let header = 4 + 4 * self.list.len();
        let mut encoded = Encoded {
            directory: vec![0; header],
            doubles: self.spare.1.clone(),
            characters: self.spare.2.clone(),
        };
        encoded.directory[..4].copy_from_slice(&[1, 1, 0, self.list.len() as u16]);
        encoded.directory.extend_from_slice(&self.spare.0);
        let mut positions: Vec<usize> = (0..self.list.len()).collect();
        if let Some(seed) = self.placing {
            Random::new(seed).shuffle(&mut positions);
        }
        for position in positions {
            let (key, held) = &self.list[position];
            let (location, count, index) = match held {
                Held::Number(number) => (0, 1, *number),
                Held::Raw(location, count, index) => (*location, *count, *index),
                Held::Array(numbers) => {
                    let index = place(&mut encoded.directory, header, numbers, self.share);
                    (34735, numbers.len() as u16, index)
                }
                Held::Doubles(doubles) => {
                    let index = place(&mut encoded.doubles, 0, doubles, self.share);
                    (34736, doubles.len() as u16, index)
                }
                Held::Text(text) => {
                    let index = place(&mut encoded.characters, 0, text, self.share);
                    (34737, text.len() as u16, index)
                }
            };
            let at = 4 + 4 * position;
            encoded.directory[at..at + 4].copy_from_slice(&[*key, location, count, index]);
        }
        encoded
    }
}

impl Encoded {
    /// The same of this minor revision.
    pub fn of_minor(mut self, minor: u16) -> Self {
        self.directory[2] = minor;
        self
    }

    /// The three little-endian runs of a key block with these elements.
    pub fn runs(&self) -> [Vec<u8>; 3] {
        [
            self.directory.iter().flat_map(|number| number.to_le_bytes()).collect(),
            self.doubles.iter().flat_map(|double| double.to_le_bytes()).collect(),
            self.characters.clone(),
        ]
    }

    /// Puts `number` at a column (0 key, 1 location, 2 count, 3 index) of the
    /// entry at `position`.
    pub fn put(mut self, position: usize, column: usize, number: u16) -> Self {
        self.directory[4 + 4 * position + column] = number;
        self
    }
}
