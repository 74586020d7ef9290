//! The accepted files that targeted cases start from.

use crate::generator::keyplan::{Held, Keys};
use crate::generator::plan::{Plan, Tag};
use crate::generator::prng::Random;
use crate::reader::tables::{of_mask, Family, Need, TagRow, TAGS};
use crate::reader::Order;

/// Draws base plans of one byte order and one family of pieces; all of them
/// keep every rule.
pub struct Bases {
    pub order: Order,
    pub family: Family,
    /// Where the plans are those of masks: the family of the image.
    pub behind: Option<Family>,
    pub random: Random,
}

/// The three keys a projected file needs.
pub fn few_keys() -> Keys {
    let mut keys = Keys::default();
    keys.set(1024, Held::Number(1));
    keys.set(1025, Held::Number(1));
    keys.set(3072, Held::Number(32633));
    keys
}

/// Keys of every kind at every location.
pub fn many_keys() -> Keys {
    few_keys()
        .with(1026, Held::Text(b"Survey|".to_vec()))
        .with(2054, Held::Number(9102))
        .with(2057, Held::Doubles(vec![6_378_137.0f64.to_bits()]))
        .with(3076, Held::Number(9001))
        .with(4096, Held::Number(5773))
        .with(60000, Held::Number(0))
        .with(60001, Held::Array(vec![7, 8, 9]))
        .with(60002, Held::Doubles(vec![1, 2]))
        .with(60003, Held::Text(b"free".to_vec()))
}

impl Bases {
    /// A plan without tags, with a random layout and random free bytes.
    fn empty(&mut self) -> Plan {
        let mut plan = Plan::new(self.order);
        if self.random.chance(50) {
            plan.shuffle = Some(self.random.draw());
        }
        plan.gap = self.random.pick(&[(0, 0), (0, 3), (1, 2)]);
        plan.fill = self.random.draw();
        plan.dirty = self.random.chance(75);
        plan
    }

    /// An image without its pieces: the needed tags, scale and tiepoint, three
    /// keys.
    fn image(&mut self) -> Plan {
        let mut plan = self.empty();
        for (tag, number) in [(256, 4), (257, 2), (258, 8), (259, 1), (262, 1), (277, 1)] {
            plan.set(Tag::shorts(tag, &[number]));
        }
        plan.set(Tag::doubles(33550, &[0.5, 0.5, 0.0]));
        plan.set(Tag::doubles(33922, &[0.0, 0.0, 0.0, 500_000.0, 4_000_000.0, 0.0]));
        plan.set_keys(&few_keys().encode());
        plan
    }

    /// The needed tags and one piece, of an image or of a mask. Before the mask is
    /// an image in one piece, of whatever size.
    pub fn plain(&mut self) -> Plan {
        let mut plan = self.image();
        if let Some(family) = self.behind {
            whole(family, &mut plan);
            plan.set_pieces(family, &[8], (true, self.random.chance(50)));
            plan = Plan::mask_of(plan);
        }
        for (tag, number) in self.piece_sizes() {
            plan.set(Tag::shorts(tag, &[number]));
        }
        let wide = (self.family == Family::Tiles || self.random.chance(50), self.random.chance(50));
        plan.set_pieces(self.family, &[8], wide);
        plan
    }

    /// Every tag of the table but the matrix and the other family's, three
    /// pieces, of an image of three samples, keys of every kind, and tags outside
    /// the table. In a mask the keys are such, too.
    pub fn rich(&mut self) -> Plan {
        let mut plan = self.plain();
        plan.set_both(Tag::longs(256, &[6]));
        plan.set_both(Tag::longs(257, &[5]));
        if self.behind.is_none() {
            plan.set(Tag::shorts(258, &[8, 8, 8]));
            plan.set(Tag::shorts(262, &[2]));
            plan.set(Tag::shorts(277, &[3]));
        }
        plan.set(Tag::bytes(270, 2, b"a sheet\0"));
        self.cut(&mut plan, &[12, 9, 7]);
        plan.set(Tag::shorts(284, &[1]));
        plan.set(Tag::bytes(305, 2, b"a writer\0"));
        plan.set(Tag::shorts(320, &[16]));
        plan.set_keys(&many_keys().encode());
        plan.set(Tag::bytes(50909, 1, b"<metadata/>"));
        plan.set(Tag::raw(65000, 13, 0, [0xFF, 0xFF, 0xFF, 0xFF]));
        plan.set(Tag::longs(65001, &[0x0101_0101]));
        plan
    }

    /// The tags that give the size of a piece, with the plain file's numbers.
    pub fn piece_sizes(&self) -> Vec<(u16, u16)> {
        match self.family {
            Family::Strips => vec![(278, 2)],
            Family::Tiles => vec![(322, 16), (323, 16)],
        }
    }

    /// The plan of a mask in three pieces behind this image, which gets another
    /// width and length.
    pub fn mask_of(&mut self, mut image: Plan) -> Plan {
        image.set(Tag::longs(256, &[40]));
        image.set(Tag::longs(257, &[5]));
        let mut plan = Plan::mask_of(image);
        for (tag, number) in self.piece_sizes() {
            plan.set(Tag::shorts(tag, &[number]));
        }
        plan.set_pieces(self.family, &[5, 3, 4], (true, true));
        plan
    }

    /// The same for plans of the image before the masks.
    pub fn of_image(&mut self) -> Bases {
        let family = self.behind.expect("plans of masks");
        Bases { family, behind: None, random: Random::new(self.random.draw()), ..*self }
    }

    /// Cuts the picture into pieces of these byte counts, the last of them not
    /// full; offsets and byte counts are LONG.
    pub fn cut(&self, plan: &mut Plan, counts: &[u32]) {
        let pieces = counts.len() as u32;
        plan.set_both(match self.family {
            Family::Strips => Tag::longs(257, &[2 * pieces - 1]),
            Family::Tiles => Tag::longs(256, &[16 * pieces - 8]),
        });
        plan.set_pieces(self.family, counts, (true, true));
    }

    /// Makes a piece as large as can be, so that it holds any picture.
    pub fn one_piece(&self, plan: &mut Plan) {
        whole(self.family, plan);
    }

    /// The rows of the table, the image's or the mask's, without those of the other
    /// family.
    pub fn rows(&self) -> Vec<TagRow> {
        let mut rows = match self.behind {
            None => TAGS.to_vec(),
            Some(_) => of_mask(4, 2),
        };
        rows.retain(|row| match row.need {
            Need::In(other) => other == self.family,
            _ => true,
        });
        rows
    }

    /// The plain file with a matrix instead of scale and tiepoint.
    pub fn affine(&mut self) -> Plan {
        let mut plan = self.plain();
        plan.remove(33550);
        plan.remove(33922);
        plan.set(Tag::doubles(34264, &MATRIX));
        plan
    }
}

/// Sets the tags that give the size of a piece to the largest there are.
fn whole(family: Family, plan: &mut Plan) {
    match family {
        Family::Strips => plan.set(Tag::longs(278, &[u32::MAX])),
        Family::Tiles => {
            plan.set(Tag::longs(322, &[u32::MAX - 15]));
            plan.set(Tag::longs(323, &[u32::MAX - 15]));
        }
    }
}

/// A matrix with rotation that keeps rule 21.
pub const MATRIX: [f64; 16] =
    [0.5, 0.25, 0., 500_000., -0.25, -0.5, 0., 4_000_000., 0., 0., 0., 0., 0., 0., 0., 1.];
