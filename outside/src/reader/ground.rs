//! The place on the ground: rules 20 to 22, the georeference and the corners.

use super::directory::Directory;
use super::number::double_bits;
use super::tables::*;
use super::tags::one;
use super::verdict::{refuse, Refusal};

/// How a pixel position becomes a place on the ground.
#[derive(Clone, Copy, Debug, PartialEq)]
pub enum Georeference {
    /// ti, tj, tx, ty, sx, sy.
    Scaled([f64; 6]),
    /// m1, m2, m4, m5, m6, m8.
    Affine([f64; 6]),
}

impl Georeference {
    /// The place of (i, j): every operation rounded once, in the written order.
    pub fn place(&self, i: f64, j: f64) -> (f64, f64) {
        match *self {
            Georeference::Scaled([ti, tj, tx, ty, sx, sy]) => {
                let right = (i - ti) * sx;
                let down = (j - tj) * sy;
                (tx + right, ty - down)
            }
            Georeference::Affine([m1, m2, m4, m5, m6, m8]) => {
                let x = m1 * i + m2 * j;
                let y = m5 * i + m6 * j;
                (x + m4, y + m8)
            }
        }
    }
}

/// The doubles of a tag; none where it is absent.
fn doubles(directory: &Directory, tag: u16) -> Option<Vec<f64>> {
    let bytes = directory.bytes(directory.find(tag)?);
    let count = bytes.len() as u64 / 8;
    let double = |i| f64::from_bits(double_bits(directory.order, bytes, 8 * i));
    Some((0..count).map(double).collect())
}

/// Rules 20 and 21; the georeference where both are kept.
pub fn rules20to21(directory: &Directory) -> Result<Georeference, Refusal> {
    let scale = doubles(directory, SCALE);
    let tiepoint = doubles(directory, TIEPOINT);
    let matrix = doubles(directory, MATRIX);
    match (scale, tiepoint, matrix) {
        (Some(scale), Some(tiepoint), None) => scaled(&scale, &tiepoint),
        (None, None, Some(matrix)) => affine(&matrix),
        (None, None, None) => refuse(20, 0, "none"),
        (Some(_), None, None) => refuse(20, 0, "scale alone"),
        (None, Some(_), None) => refuse(20, 0, "tiepoint alone"),
        (Some(_), None, Some(_)) => refuse(20, 0, "scale and matrix"),
        (None, Some(_), Some(_)) => refuse(20, 0, "tiepoint and matrix"),
        (Some(_), Some(_), Some(_)) => refuse(20, 0, "all three"),
    }
}

/// Rule 21 for any tag: all its doubles are finite.
fn finite(tag: u16, doubles: &[f64]) -> Result<(), Refusal> {
    match doubles.iter().position(|double| !double.is_finite()) {
        Some(at) => refuse(21, u32::from(tag), &format!("{tag} element {} not finite", at + 1)),
        None => Ok(()),
    }
}

/// Rule 21 for scale and tiepoint.
fn scaled(scale: &[f64], tiepoint: &[f64]) -> Result<Georeference, Refusal> {
    finite(SCALE, scale)?;
    for (at, axis) in [(0, "X"), (1, "Y")] {
        let above = scale[at] > 0.0;
        if !above {
            return refuse(21, u32::from(SCALE), &format!("33550 {axis} not above 0"));
        }
    }
    finite(TIEPOINT, tiepoint)?;
    let [ti, tj, tx, ty] = [tiepoint[0], tiepoint[1], tiepoint[3], tiepoint[4]];
    Ok(Georeference::Scaled([ti, tj, tx, ty, scale[0], scale[1]]))
}

/// Rule 21 for the matrix; its elements are counted from 1.
fn affine(matrix: &[f64]) -> Result<Georeference, Refusal> {
    finite(MATRIX, matrix)?;
    let m = |element: usize| matrix[element - 1];
    for (element, number) in [(13, 0.0), (14, 0.0), (15, 0.0), (16, 1.0)] {
        if m(element) != number {
            return refuse(21, u32::from(MATRIX), &format!("34264 element {element} of the last"));
        }
    }
    if m(1) * m(6) == m(2) * m(5) {
        return refuse(21, u32::from(MATRIX), "34264 products equal");
    }
    Ok(Georeference::Affine([m(1), m(2), m(4), m(5), m(6), m(8)]))
}

/// Rule 22; the two corners, X and Y each, where it is kept.
pub fn corners(
    directory: &Directory,
    raster: u16,
    georeference: &Georeference,
) -> Result<[f64; 4], Refusal> {
    let less = if raster == 2 { 1 } else { 0 };
    let i = f64::from(one(directory, WIDTH) - less);
    let j = f64::from(one(directory, LENGTH) - less);
    let (x0, y0) = georeference.place(0.0, 0.0);
    let (x1, y1) = georeference.place(i, j);
    let form = match georeference {
        Georeference::Scaled(_) => "scaled",
        Georeference::Affine(_) => "affine",
    };
    let names = ["first X", "first Y", "second X", "second Y"];
    let corners = [x0, y0, x1, y1];
    for (name, coordinate) in names.iter().zip(corners) {
        if !coordinate.is_finite() {
            let what = if coordinate.is_nan() { "NaN" } else { "infinite" };
            return refuse(22, 0, &format!("{form} {name} {what}"));
        }
    }
    Ok(corners)
}
