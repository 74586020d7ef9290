//! Rules 20 to 22: which tags place the picture, their doubles, the corners.

use super::bases::{few_keys, Bases, MATRIX};
use super::Cases;
use crate::generator::keyplan::Held;
use crate::generator::plan::Tag;

pub fn cases(bases: &mut Bases, cases: &mut Cases) {
    combinations(bases, cases);
    not_finite(bases, cases);
    largest(bases, cases);
    scales(bases, cases);
    last_of_matrix(bases, cases);
    products(bases, cases);
    first_corner(bases, cases);
    second_corner(bases, cases);
    affine_corner(bases, cases);
}

fn combinations(bases: &mut Bases, cases: &mut Cases) {
    let sets = [
        ("none", false, false, false),
        ("scale alone", true, false, false),
        ("tiepoint alone", false, true, false),
        ("scale and matrix", true, false, true),
        ("tiepoint and matrix", false, true, true),
        ("all three", true, true, true),
    ];
    for (name, scale, tiepoint, matrix) in sets {
        let clause = format!("20 {name}");
        for mut plan in [bases.plain(), bases.rich()] {
            [(33550, scale), (33922, tiepoint)].iter().for_each(|&(tag, stays)| {
                if !stays {
                    plan.remove(tag);
                }
            });
            if matrix {
                plan.set(Tag::doubles(34264, &MATRIX));
            }
            cases.broken(&clause, plan.lay().bytes, 0);
        }
        cases.kept(&clause, bases.plain().lay().bytes);
        cases.kept(&clause, bases.affine().lay().bytes);
    }
}

const SCALE: [f64; 3] = [0.5, 0.5, 0.0];
const TIEPOINT: [f64; 6] = [0.0, 0.0, 0.0, 500_000.0, 4_000_000.0, 0.0];

/// What a file of rules 20 to 22 is made of.
#[derive(Clone)]
struct Ground {
    size: (u16, u16),
    raster: u16,
    /// The tag that is set, with the bits of its doubles.
    tags: Vec<(u16, Vec<u64>)>,
}

fn bits(doubles: &[f64]) -> Vec<u64> {
    doubles.iter().map(|double| double.to_bits()).collect()
}

fn scaled(scale: &[f64], tiepoint: &[f64]) -> Ground {
    let tags = vec![(33550, bits(scale)), (33922, bits(tiepoint))];
    Ground { size: (4, 2), raster: 1, tags }
}

fn affine(matrix: &[f64]) -> Ground {
    Ground { size: (4, 2), raster: 1, tags: vec![(34264, bits(matrix))] }
}

impl Ground {
    fn sized(mut self, width: u16, length: u16) -> Self {
        self.size = (width, length);
        self
    }

    fn point(mut self) -> Self {
        self.raster = 2;
        self
    }

    /// The same with one double of a tag, counted from 1, set by its bits.
    fn put(mut self, tag: u16, element: usize, bits: u64) -> Self {
        let doubles = self.tags.iter_mut().find(|known| known.0 == tag).expect("a set tag");
        doubles.1[element - 1] = bits;
        self
    }

    fn file(&self, bases: &mut Bases) -> Vec<u8> {
        let mut plan = bases.plain();
        plan.remove(33550);
        plan.remove(33922);
        for (tag, doubles) in &self.tags {
            plan.set(Tag::double_bits(*tag, doubles));
        }
        plan.set(Tag::shorts(256, &[self.size.0]));
        plan.set(Tag::shorts(257, &[self.size.1]));
        bases.one_piece(&mut plan);
        plan.set_keys(&few_keys().with(1025, Held::Number(self.raster)).encode());
        plan.lay().bytes
    }
}

/// Both infinities, quiet and signalling NaN of both signs.
const NOT_FINITE: [u64; 6] = [
    0x7FF0_0000_0000_0000,
    0xFFF0_0000_0000_0000,
    0x7FF8_0000_0000_0000,
    0xFFF8_0000_0000_0000,
    0x7FF0_0000_0000_0001,
    0xFFFF_FFFF_FFFF_FFFF,
];

/// Every double of every tag, used or not, must be finite.
fn not_finite(bases: &mut Bases, cases: &mut Cases) {
    let (of_scale, of_matrix) = (scaled(&SCALE, &TIEPOINT), affine(&MATRIX));
    for (tag, ground, elements) in
        [(33550, &of_scale, 3), (33922, &of_scale, 6), (34264, &of_matrix, 16)]
    {
        for element in 1..=elements {
            let clause = format!("21 {tag} element {element} not finite");
            for bits in NOT_FINITE {
                let file = ground.clone().put(tag, element, bits).file(bases);
                cases.broken(&clause, file, u32::from(tag));
            }
            cases.kept(&clause, ground.file(bases));
        }
    }
    let nan = NOT_FINITE[2];
    let both = of_scale.clone().put(33922, 3, nan).put(33550, 3, nan);
    cases.broken("21 33550 element 3 not finite", both.file(bases), 33550);
    let both = of_scale.put(33922, 1, nan).put(33550, 2, 0);
    cases.broken("21 33550 Y not above 0", both.file(bases), 33550);
}

/// The largest doubles are finite, and where nothing is multiplied they stay.
fn largest(bases: &mut Bases, cases: &mut Cases) {
    let (most, least) = (f64::MAX.to_bits(), (-f64::MAX).to_bits());
    let ground = scaled(&SCALE, &TIEPOINT).sized(1, 1);
    for (tag, elements, from) in [(33550, 3, 1), (33922, 6, 1)] {
        for element in from..=elements {
            let clause = format!("21 {tag} element {element} not finite");
            cases.kept(&clause, ground.clone().put(tag, element, most).file(bases));
            if tag == 33922 || element == 3 {
                cases.kept(&clause, ground.clone().put(tag, element, least).file(bases));
            }
        }
    }
    for element in [3, 4, 7, 8, 9, 10, 11, 12] {
        let clause = format!("21 34264 element {element} not finite");
        for bits in [most, least] {
            cases.kept(&clause, affine(&MATRIX).put(34264, element, bits).file(bases));
        }
    }
}

fn scales(bases: &mut Bases, cases: &mut Cases) {
    for (element, axis) in [(1, "X"), (2, "Y")] {
        let clause = format!("21 33550 {axis} not above 0");
        for scale in [0.0, -0.0, -5e-324, -0.5, -1e300, -f64::MAX] {
            let ground = scaled(&SCALE, &TIEPOINT).put(33550, element, f64::to_bits(scale));
            cases.broken(&clause, ground.file(bases), 33550);
        }
        for scale in [5e-324, f64::MIN_POSITIVE, 0.5, 1e300] {
            let ground = scaled(&SCALE, &TIEPOINT).put(33550, element, f64::to_bits(scale));
            cases.kept(&clause, ground.file(bases));
        }
    }
    for scale in [0.0, -1.0, -f64::MAX] {
        let ground = scaled(&SCALE, &TIEPOINT).put(33550, 3, f64::to_bits(scale));
        cases.kept("21 33550 X not above 0", ground.file(bases));
    }
}

fn last_of_matrix(bases: &mut Bases, cases: &mut Cases) {
    for element in 13..=16 {
        let clause = format!("21 34264 element {element} of the last");
        let (wrong, right): (Vec<f64>, Vec<f64>) = match element {
            16 => (vec![0.0, -1.0, before(1.0), after(1.0), 2.0, 5e-324], vec![1.0]),
            _ => (vec![5e-324, -5e-324, 1.0, -1.0, f64::MAX], vec![0.0, -0.0]),
        };
        for double in wrong {
            let ground = affine(&MATRIX).put(34264, element, double.to_bits());
            cases.broken(&clause, ground.file(bases), 34264);
        }
        for double in right {
            let ground = affine(&MATRIX).put(34264, element, double.to_bits());
            cases.kept(&clause, ground.file(bases));
        }
    }
}

/// The double before, or after, one above 0.
fn before(double: f64) -> f64 {
    f64::from_bits(double.to_bits() - 1)
}

fn after(double: f64) -> f64 {
    f64::from_bits(double.to_bits() + 1)
}

/// The matrix with elements 1, 2, 5 and 6 set.
fn four(numbers: [f64; 4]) -> Ground {
    let mut matrix = MATRIX;
    (matrix[0], matrix[1]) = (numbers[0], numbers[1]);
    (matrix[4], matrix[5]) = (numbers[2], numbers[3]);
    affine(&matrix)
}

fn products(bases: &mut Bases, cases: &mut Cases) {
    let clause = "21 34264 products equal";
    let equal = [
        [0.0, 0.0, 0.0, 0.0],
        [1.0, 1.0, 1.0, 1.0],
        [2.0, 4.0, 1.0, 2.0],
        [-1.0, 0.0, 1.0, 0.0],
        [1e200, 1e200, 1e200, 1e200],
        [-1e200, 1e200, 1e300, -1e200],
        [1e-200, 0.0, 0.0, 1e-200],
        [1e-200, 1e-200, -1e-200, 1e-200],
        [3.0, 1.0, 1.0, 1.0 / 3.0],
    ];
    for numbers in equal {
        cases.broken(clause, four(numbers).file(bases), 34264);
    }
    let differ = [
        [1.0, 0.0, 0.0, 1.0],
        [0.0, 1.0, 1.0, 0.0],
        [0.0, 1.0, -1.0, -0.0],
        [1e200, 1e200, -1e200, 1e200],
        [1e200, 1.0, 1.0, 1e200],
        [1.0, 1.0, 1.0, 1.0 + f64::EPSILON],
        [5e-324, 0.0, 0.0, 1.0],
        [1.0, 1.0, 1.0, -1.0],
    ];
    for numbers in differ {
        cases.kept(clause, four(numbers).file(bases));
    }
}

/// Half the distance from the largest double to the next power of two: added
/// to the largest it rounds to infinity, anything less does not.
fn half_step() -> f64 {
    f64::from_bits((970 + 1023) << 52)
}

fn first_corner(bases: &mut Bases, cases: &mut Cases) {
    let step = half_step();
    let [x, y] = ["22 scaled first X infinite", "22 scaled first Y infinite"];
    let at = |i: f64, j: f64, tx: f64, ty: f64| scaled(&[1.0, 1.0, 0.0], &[i, j, 0.0, tx, ty, 0.0]);
    let most = f64::MAX;
    cases.broken(x, at(-step, 0.0, most, 0.0).file(bases), 0);
    cases.kept(x, at(-before(step), 0.0, most, 0.0).file(bases));
    cases.broken(x, at(step, 0.0, -most, 0.0).file(bases), 0);
    cases.kept(x, at(before(step), 0.0, -most, 0.0).file(bases));
    cases.broken(y, at(0.0, -step, 0.0, -most).file(bases), 0);
    cases.kept(y, at(0.0, -before(step), 0.0, -most).file(bases));
    cases.broken(y, at(0.0, step, 0.0, most).file(bases), 0);
    cases.kept(y, at(0.0, before(step), 0.0, most).file(bases));
    let product = |axis: usize| {
        let ground = scaled(&SCALE, &[-most, -most, 0.0, 0.0, 0.0, 0.0]);
        ground.put(33550, axis, 1.5f64.to_bits())
    };
    cases.broken(x, product(1).file(bases), 0);
    cases.broken(y, product(2).file(bases), 0);
}

fn second_corner(bases: &mut Bases, cases: &mut Cases) {
    let step = half_step();
    let [x, y] = ["22 scaled second X infinite", "22 scaled second Y infinite"];
    let at =
        |sx: f64, sy: f64, tx: f64, ty: f64| scaled(&[sx, sy, 0.0], &[0.0, 0.0, 0.0, tx, ty, 0.0]);
    let most = f64::MAX;
    let across = at(step / 4.0, 0.5, most, 0.0);
    cases.broken(x, across.file(bases), 0);
    cases.kept(x, across.clone().point().file(bases));
    cases.kept(x, at(before(step / 4.0), 0.5, most, 0.0).file(bases));
    let down = at(0.5, step / 2.0, 0.0, -most);
    cases.broken(y, down.file(bases), 0);
    cases.kept(y, down.clone().point().file(bases));
    cases.kept(y, at(0.5, before(step / 2.0), 0.0, -most).file(bases));
    let doubled = at(most, most, -most, most);
    cases.broken(x, doubled.clone().sized(2, 2).file(bases), 0);
    cases.broken(y, doubled.clone().sized(1, 2).file(bases), 0);
    cases.kept(x, doubled.clone().sized(1, 1).file(bases));
    cases.kept(y, doubled.clone().sized(2, 2).point().file(bases));
    cases.kept(x, doubled.sized(1, 1).point().file(bases));
}

/// Only the second corner can go: at (0, 0) the products are zeros.
fn affine_corner(bases: &mut Bases, cases: &mut Cases) {
    let step = half_step();
    let (most, huge) = (f64::MAX.to_bits(), 1e308);
    let [x, y] = ["22 affine second X infinite", "22 affine second Y infinite"];
    for (numbers, translation, clause) in [
        ([step / 4.0, 0.0, 0.0, -0.5], 4, x),
        ([0.0, step / 2.0, 0.25, -0.5], 4, x),
        ([0.5, 0.25, step / 4.0, 0.0], 8, y),
        ([0.5, 0.0, 0.0, step / 2.0], 8, y),
    ] {
        let ground = four(numbers).put(34264, translation, most);
        cases.broken(clause, ground.clone().file(bases), 0);
        cases.kept(clause, ground.point().file(bases));
        let less = numbers.map(|n| if n > 1.0 { before(n) } else { n });
        cases.kept(clause, four(less).put(34264, translation, most).file(bases));
    }
    let [x_nan, y_nan] = ["22 affine second X NaN", "22 affine second Y NaN"];
    cases.broken(x_nan, four([huge, -huge, 1.0, 1.0]).file(bases), 0);
    cases.broken(x_nan, four([-huge, huge, 1.0, 1.0]).file(bases), 0);
    cases.kept(x_nan, four([huge, -huge, 1.0, 1.0]).sized(1, 1).file(bases));
    cases.broken(y_nan, four([1.0, 1.0, huge, -huge]).file(bases), 0);
    cases.broken(y_nan, four([1.0, 1.0, -huge, huge]).file(bases), 0);
    cases.kept(y_nan, four([1.0, 1.0, huge, -huge]).sized(1, 1).file(bases));
    let half = f64::from_bits((1021 + 1023) << 52);
    let least = (-f64::MAX).to_bits();
    let sum_first = four([half, 2.0 * half, 1.0, 1.0]).put(34264, 4, least);
    cases.broken(x, sum_first.file(bases), 0);
    let sum_first = four([1.0, 1.0, half, 2.0 * half]).put(34264, 8, least);
    cases.broken(y, sum_first.file(bases), 0);
}
