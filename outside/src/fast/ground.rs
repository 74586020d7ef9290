//! The place on the ground: rules 20 to 22.

use super::number::bits;
use super::tags::slot::{MATRIX, SCALE, TIEPOINT};
use super::tags::Tags;
use super::{refuse, Ground, Refusal};

/// The first `N` doubles of a present tag of that count.
#[inline(always)]
fn doubles<const BIG: bool, const N: usize>(file: &[u8], tags: &Tags, slot: usize) -> [f64; N] {
    let run = tags.value(file, slot, 8).as_chunks::<8>().0;
    let run: &[[u8; 8]; N] = run.try_into().expect("rule 10 is kept");
    run.map(|eight| f64::from_bits(bits::<BIG>(eight)))
}

#[inline(always)]
fn all_finite(doubles: &[f64]) -> bool {
    doubles.iter().fold(true, |all, double| all & double.is_finite())
}

/// Rule 20, then 21 and 22 for the form it leaves.
#[inline(always)]
pub fn rules20to22<const BIG: bool>(
    file: &[u8],
    tags: &Tags,
    raster: u16,
    ground: &mut Ground,
) -> Result<(), Refusal> {
    let less = u32::from(raster == 2);
    let (i, j) = (f64::from(tags.width - less), f64::from(tags.length - less));
    let found = match (tags.has(SCALE), tags.has(TIEPOINT), tags.has(MATRIX)) {
        (true, true, false) => scaled::<BIG>(file, tags, i, j)?,
        (false, false, true) => affine::<BIG>(file, tags, i, j)?,
        _ => return refuse(20, 0),
    };
    if !all_finite(&found.corners) {
        return refuse(22, 0);
    }
    *ground = found;
    Ok(())
}

/// Rule 21 for scale and tiepoint, and the corners.
#[inline(always)]
fn scaled<const BIG: bool>(file: &[u8], tags: &Tags, i: f64, j: f64) -> Result<Ground, Refusal> {
    let scale = doubles::<BIG, 3>(file, tags, SCALE);
    let [sx, sy, _] = scale;
    let above = sx > 0.0 && sy > 0.0;
    if !above || !all_finite(&scale) {
        return refuse(21, 33550);
    }
    let tiepoint = doubles::<BIG, 6>(file, tags, TIEPOINT);
    if !all_finite(&tiepoint) {
        return refuse(21, 33922);
    }
    let [ti, tj, _, tx, ty, _] = tiepoint;
    let place = |i: f64, j: f64| (tx + (i - ti) * sx, ty - (j - tj) * sy);
    let ((x0, y0), (x1, y1)) = (place(0.0, 0.0), place(i, j));
    Ok(Ground { form: 0, six: [ti, tj, tx, ty, sx, sy], corners: [x0, y0, x1, y1] })
}

/// Rule 21 for the matrix, and the corners.
#[inline(always)]
fn affine<const BIG: bool>(file: &[u8], tags: &Tags, i: f64, j: f64) -> Result<Ground, Refusal> {
    let matrix = doubles::<BIG, 16>(file, tags, MATRIX);
    let [m1, m2, _, m4, m5, m6, _, m8, .., m13, m14, m15, m16] = matrix;
    let last = (m13, m14, m15, m16) == (0.0, 0.0, 0.0, 1.0);
    if !last || !all_finite(&matrix) || m1 * m6 == m2 * m5 {
        return refuse(21, 34264);
    }
    let place = |i: f64, j: f64| ((m1 * i + m2 * j) + m4, (m5 * i + m6 * j) + m8);
    let ((x0, y0), (x1, y1)) = (place(0.0, 0.0), place(i, j));
    Ok(Ground { form: 1, six: [m1, m2, m4, m5, m6, m8], corners: [x0, y0, x1, y1] })
}
