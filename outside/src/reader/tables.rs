//! The tables: one for tags, document 01's with the four tags of tiles, that of
//! a mask, which is drawn from it, and one for keys, each in ascending order. A
//! later request adds its rows here. `Rules` has what a request changed beside
//! them.

/// The most entries a directory may have.
pub const MOST_ENTRIES: u64 = 1_024;
/// The most keys a key directory may have.
pub const MOST_KEYS: u16 = 256;
/// The longest file.
pub const LONGEST: u64 = 4_294_967_295;

pub const BYTE: u16 = 1;
pub const ASCII: u16 = 2;
pub const SHORT: u16 = 3;
pub const LONG: u16 = 4;
pub const DOUBLE: u16 = 12;

pub const SUBFILE: u16 = 254;
pub const WIDTH: u16 = 256;
pub const LENGTH: u16 = 257;
pub const BITS: u16 = 258;
pub const COMPRESSION: u16 = 259;
pub const PHOTOMETRIC: u16 = 262;
pub const STRIP_OFFSETS: u16 = 273;
pub const SAMPLES: u16 = 277;
pub const ROWS_PER_STRIP: u16 = 278;
pub const STRIP_BYTE_COUNTS: u16 = 279;
pub const PLANAR: u16 = 284;
pub const TILE_WIDTH: u16 = 322;
pub const TILE_LENGTH: u16 = 323;
pub const TILE_OFFSETS: u16 = 324;
pub const TILE_BYTE_COUNTS: u16 = 325;
pub const SCALE: u16 = 33550;
pub const TIEPOINT: u16 = 33922;
pub const MATRIX: u16 = 34264;
pub const KEY_DIRECTORY: u16 = 34735;
pub const DOUBLES: u16 = 34736;
pub const CHARACTERS: u16 = 34737;
pub const METADATA: u16 = 50909;

/// How many elements a tag has.
#[derive(Clone, Copy, Debug, PartialEq, Eq)]
pub enum Count {
    Exactly(u32),
    AtLeast(u32),
}

impl Count {
    pub fn holds(self, count: u32) -> bool {
        match self {
            Count::Exactly(number) => count == number,
            Count::AtLeast(number) => count >= number,
        }
    }
}

/// The allowed numbers.
#[derive(Clone, Copy, Debug, PartialEq, Eq)]
pub enum Allowed {
    /// Any number, or another rule decides.
    Any,
    /// Ascending ranges, both ends included.
    In(&'static [(u32, u32)]),
    /// The positive multiples of a number.
    MultiplesOf(u32),
    /// This number alone.
    Just(u32),
}

impl Allowed {
    /// The ranges, where there are such.
    pub fn ranges(self) -> Option<&'static [(u32, u32)]> {
        match self {
            Allowed::In(ranges) => Some(ranges),
            _ => None,
        }
    }
}

/// How a number misses the allowed ones, or none if it is allowed.
pub fn outside(allowed: Allowed, number: u32) -> Option<String> {
    match allowed {
        Allowed::Any => None,
        Allowed::In(ranges) => side(ranges, number).map(str::to_string),
        Allowed::Just(only) => side(&[(only, only)], number).map(str::to_string),
        Allowed::MultiplesOf(_) if number == 0 => Some("not positive".to_string()),
        Allowed::MultiplesOf(step) if !number.is_multiple_of(step) => {
            Some(format!("not a multiple of {step}"))
        }
        Allowed::MultiplesOf(_) => None,
    }
}

/// Which side of the ranges a number lies on, or none if it is in one.
fn side(ranges: &[(u32, u32)], number: u32) -> Option<&'static str> {
    if ranges.iter().any(|&(low, high)| low <= number && number <= high) {
        None
    } else if number < ranges[0].0 {
        Some("below")
    } else if number > ranges[ranges.len() - 1].1 {
        Some("above")
    } else {
        Some("between")
    }
}

/// The two families of tags that tell of the pieces of a picture: a piece is
/// a strip or a tile.
#[derive(Clone, Copy, Debug, PartialEq, Eq)]
pub enum Family {
    Strips,
    Tiles,
}

/// Both families.
pub const BOTH: &[Family] = &[Family::Strips, Family::Tiles];

/// What tells the rules of one request from those before it.
#[derive(Clone, Copy, Debug)]
pub struct Rules {
    /// The families of pieces that are known.
    pub families: &'static [Family],
    /// The tags that rule 6 lets stand side by side.
    pub repeated: &'static [u16],
    /// The minor revisions that rule 15 lets a key directory have.
    pub minors: &'static [u16],
    /// Whether the image's next offset may lead to a mask.
    pub masks: bool,
}

/// Every picture is in strips, no tag stands twice, every key directory is of
/// minor revision 0, and no directory follows the image's.
pub const DOCUMENT_01: Rules =
    Rules { families: &[Family::Strips], repeated: &[], minors: &[0], masks: false };
/// With tiles.
pub const C_11: Rules = Rules { families: BOTH, ..DOCUMENT_01 };
/// With more than one metadata tag.
pub const C_12: Rules = Rules { repeated: &[METADATA], ..C_11 };
/// With minor revision 1.
pub const C_13: Rules = Rules { minors: &[0, 1], ..C_12 };
/// With a mask behind the image.
pub const C_14: Rules = Rules { masks: true, ..C_13 };
/// The rules that every call goes by.
pub const IN_FORCE: Rules = C_14;

impl Family {
    /// What one piece is called.
    pub fn word(self) -> &'static str {
        match self {
            Family::Strips => "strip",
            Family::Tiles => "tile",
        }
    }

    /// The tags of the offsets and of the byte counts of the pieces.
    pub fn places(self) -> (u16, u16) {
        match self {
            Family::Strips => (STRIP_OFFSETS, STRIP_BYTE_COUNTS),
            Family::Tiles => (TILE_OFFSETS, TILE_BYTE_COUNTS),
        }
    }

    /// All its tags, lowest first.
    pub fn tags(self) -> impl Iterator<Item = u16> {
        TAGS.iter().filter(move |row| row.need == Need::In(self)).map(|row| row.tag)
    }
}

/// When rule 9 asks for a tag.
#[derive(Clone, Copy, Debug, PartialEq, Eq)]
pub enum Need {
    Never,
    Always,
    /// Where the picture is in pieces of this family.
    In(Family),
}

/// One row of the table of tags.
#[derive(Clone, Copy, Debug)]
pub struct TagRow {
    pub tag: u16,
    pub need: Need,
    pub kinds: &'static [u16],
    pub count: Count,
    /// What rule 11 allows.
    pub allowed: Allowed,
}

const fn tag(
    tag: u16,
    need: Need,
    kinds: &'static [u16],
    count: Count,
    allowed: Allowed,
) -> TagRow {
    TagRow { tag, need, kinds, count, allowed }
}

const ONE: Count = Count::Exactly(1);
const MANY: Count = Count::AtLeast(1);
const NUMBER: &[u16] = &[SHORT, LONG];

const SIXTEENS: Allowed = Allowed::MultiplesOf(16);
const STRIPS: Need = Need::In(Family::Strips);
const TILES: Need = Need::In(Family::Tiles);

use Allowed::{Any, In, Just};
use Need::{Always, Never};

/// The table of tags.
pub static TAGS: [TagRow; 21] = [
    tag(WIDTH, Always, NUMBER, ONE, In(&[(1, 1_000_000)])),
    tag(LENGTH, Always, NUMBER, ONE, In(&[(1, 1_000_000)])),
    tag(BITS, Always, &[SHORT], MANY, In(&[(1, 1), (8, 8), (16, 16), (32, 32)])),
    tag(COMPRESSION, Always, &[SHORT], ONE, In(&[(1, 2), (32773, 32773)])),
    tag(PHOTOMETRIC, Always, &[SHORT], ONE, In(&[(0, 3)])),
    tag(STRIP_OFFSETS, STRIPS, NUMBER, MANY, Any),
    tag(SAMPLES, Always, &[SHORT], ONE, In(&[(1, 8)])),
    tag(ROWS_PER_STRIP, STRIPS, NUMBER, ONE, In(&[(1, u32::MAX)])),
    tag(STRIP_BYTE_COUNTS, STRIPS, NUMBER, MANY, Any),
    tag(PLANAR, Never, &[SHORT], ONE, In(&[(1, 1)])),
    tag(TILE_WIDTH, TILES, NUMBER, ONE, SIXTEENS),
    tag(TILE_LENGTH, TILES, NUMBER, ONE, SIXTEENS),
    tag(TILE_OFFSETS, TILES, &[LONG], MANY, Any),
    tag(TILE_BYTE_COUNTS, TILES, NUMBER, MANY, Any),
    tag(SCALE, Never, &[DOUBLE], Count::Exactly(3), Any),
    tag(TIEPOINT, Never, &[DOUBLE], Count::Exactly(6), Any),
    tag(MATRIX, Never, &[DOUBLE], Count::Exactly(16), Any),
    tag(KEY_DIRECTORY, Always, &[SHORT], Count::AtLeast(4), Any),
    tag(DOUBLES, Never, &[DOUBLE], MANY, Any),
    tag(CHARACTERS, Never, &[ASCII], MANY, Any),
    tag(METADATA, Never, &[BYTE], MANY, Any),
];

/// The table of the mask of an image of this size: 254, and the image's rows for
/// its picture, of which some have another value.
pub fn of_mask(width: u32, length: u32) -> Vec<TagRow> {
    let of_picture = TAGS.iter().filter(|row| row.tag < SCALE).map(|row| {
        let allowed = match row.tag {
            WIDTH => Just(width),
            LENGTH => Just(length),
            BITS | SAMPLES => Just(1),
            PHOTOMETRIC => Just(4),
            _ => row.allowed,
        };
        TagRow { allowed, ..*row }
    });
    [tag(SUBFILE, Always, &[LONG], ONE, Just(4))].into_iter().chain(of_picture).collect()
}

/// The kind of a key; its number is the one a row shows.
#[derive(Clone, Copy, Debug, PartialEq, Eq)]
pub enum Kind {
    Short = 0,
    Double = 1,
    Ascii = 2,
    Other = 3,
}

impl Kind {
    pub fn word(self) -> &'static str {
        match self {
            Kind::Short => "SHORT",
            Kind::Double => "DOUBLE",
            Kind::Ascii => "ASCII",
            Kind::Other => "other",
        }
    }
}

/// When rule 18 asks for a key.
#[derive(Clone, Copy, Debug, PartialEq, Eq)]
pub enum Needed {
    No,
    Always,
    /// Only if key 1024 has this number.
    IfModel(u16),
}

pub const MODEL: u16 = 1024;
pub const RASTER: u16 = 1025;

/// One row of the table of keys.
#[derive(Clone, Copy, Debug)]
pub struct KeyRow {
    pub key: u16,
    pub kind: Kind,
    pub needed: Needed,
    /// What rule 19 allows.
    pub allowed: Allowed,
}

const fn key(key: u16, kind: Kind) -> KeyRow {
    KeyRow { key, kind, needed: Needed::No, allowed: Any }
}

const fn tested(key: u16, needed: Needed, allowed: &'static [(u32, u32)]) -> KeyRow {
    KeyRow { key, kind: Kind::Short, needed, allowed: In(allowed) }
}

use Kind::{Ascii, Double, Short};

/// The table of the 45 known keys.
pub static KEYS: [KeyRow; 45] = [
    tested(MODEL, Needed::Always, &[(1, 2)]),
    tested(RASTER, Needed::Always, &[(1, 2)]),
    key(1026, Ascii),
    tested(2048, Needed::IfModel(2), &[(4326, 4326)]),
    key(2049, Ascii),
    key(2050, Short),
    key(2051, Short),
    key(2052, Short),
    key(2053, Double),
    tested(2054, Needed::No, &[(9102, 9102)]),
    key(2055, Double),
    key(2056, Short),
    key(2057, Double),
    key(2058, Double),
    key(2059, Double),
    key(2060, Short),
    key(2061, Double),
    tested(3072, Needed::IfModel(1), &[(32601, 32661), (32701, 32761)]),
    key(3073, Ascii),
    key(3074, Short),
    key(3075, Short),
    tested(3076, Needed::No, &[(9001, 9001)]),
    key(3077, Double),
    key(3078, Double),
    key(3079, Double),
    key(3080, Double),
    key(3081, Double),
    key(3082, Double),
    key(3083, Double),
    key(3084, Double),
    key(3085, Double),
    key(3086, Double),
    key(3087, Double),
    key(3088, Double),
    key(3089, Double),
    key(3090, Double),
    key(3091, Double),
    key(3092, Double),
    key(3093, Double),
    key(3094, Double),
    key(3095, Double),
    tested(4096, Needed::No, VERTICAL),
    key(4097, Ascii),
    key(4098, Short),
    key(4099, Short),
];

const VERTICAL: &[(u32, u32)] =
    &[(3855, 3855), (4979, 4979), (5714, 5715), (5773, 5773), (5798, 5798)];

/// The kind of any key: what the table says, else other.
pub fn kind_of(key: u16) -> Kind {
    KEYS.iter().find(|row| row.key == key).map_or(Kind::Other, |row| row.kind)
}
