//! A judge written for speed: verdict, place, georeference and corners, and
//! nothing that can be left out. It is the measure for the compiled judge.
//!
//! One pass over the entries keeps those of the table in a fixed array; one
//! pass over the pieces and one over the keys follow. There is a copy of what
//! looks at pieces for strips and one for tiles: after rule 27 a file has just
//! one of the two families. Each rule is tried as soon as its numbers are at
//! hand, and the first fault of a later rule waits until the earlier ones are
//! done. Nothing is allocated, the byte order is a constant of each copy of the
//! code, and all reads are from arrays of known length, so no unsafe code is
//! needed to be rid of the bounds. Further metadata tags are seldom there: they
//! stay in the directory, and their entries are read again for each gap that is
//! looked for. So are masks: a file with a next offset takes a path of its own,
//! which keeps where the picture begins and ends. The image's pieces are looked at
//! again only where a part of the mask stands between these two.

mod ground;
mod keys;
mod mask;
mod number;
mod pieces;
mod tags;

use number::{long, long_at, short_at};
use tags::Tags;

/// The first broken rule and its place.
#[derive(Clone, Copy, Debug, PartialEq, Eq)]
pub struct Refusal {
    pub rule: u32,
    pub place: u32,
}

#[cold]
#[inline(never)]
fn refuse<T>(rule: u32, place: u32) -> Result<T, Refusal> {
    Err(Refusal { rule, place })
}

/// Where an accepted picture lies: form 0 scaled, 1 affine.
#[derive(Clone, Copy, Debug, Default, PartialEq)]
pub struct Ground {
    pub form: u32,
    pub six: [f64; 6],
    pub corners: [f64; 4],
}

/// The verdict and the place.
#[inline(never)]
pub fn verdict(file: &[u8]) -> (u32, u32) {
    match examine(file, &mut Ground::default()) {
        Ok(()) => (0, 0),
        Err(refusal) => (refusal.rule, refusal.place),
    }
}

/// The verdict, the place, and the ground into lent memory.
#[inline(never)]
pub fn judge(file: &[u8], ground: &mut Ground) -> (u32, u32) {
    match examine(file, ground) {
        Ok(()) => (0, 0),
        Err(refusal) => {
            *ground = Ground::default();
            (refusal.rule, refusal.place)
        }
    }
}

/// Rules 1 and 2, then the others in the file's byte order. The ground is
/// written if they are kept.
#[inline(always)]
fn examine(file: &[u8], ground: &mut Ground) -> Result<(), Refusal> {
    let Some(head) = file.first_chunk::<8>() else { return refuse(1, 0) };
    if file.len() > u32::MAX as usize {
        return refuse(1, 0);
    }
    match [head[0], head[1]] {
        [0x49, 0x49] => in_order::<false>(file, head, ground),
        [0x4D, 0x4D] => in_order::<true>(file, head, ground),
        _ => refuse(2, 0),
    }
}

/// Rules 4 and 5: the entries of a directory at `at`, and its next offset.
#[inline(always)]
fn directory<const BIG: bool>(file: &[u8], at: usize) -> Result<(&[[u8; 12]], &[u8; 4]), Refusal> {
    if !at.is_multiple_of(2) || at < 8 {
        return refuse(4, 0);
    }
    let Some((count, rest)) = file.get(at..).and_then(|part| part.split_first_chunk::<2>()) else {
        return refuse(4, 0);
    };
    let count = usize::from(short_at::<BIG, 2>(count, 0));
    if count == 0 || count > 1_024 {
        return refuse(5, 0);
    }
    let Some((entries, next)) = rest.split_at_checked(12 * count) else { return refuse(5, 0) };
    let Some(next) = next.first_chunk::<4>() else { return refuse(5, 0) };
    Ok((entries.as_chunks::<12>().0, next))
}

/// Rules 3 to 22, 27 and 28.
#[inline]
fn in_order<const BIG: bool>(
    file: &[u8],
    head: &[u8; 8],
    ground: &mut Ground,
) -> Result<(), Refusal> {
    if short_at::<BIG, 8>(head, 2) != 42 {
        return refuse(3, 0);
    }
    let at = long_at::<BIG, 8>(head, 4) as usize;
    let (entries, next) = directory::<BIG>(file, at)?;
    let mut tags = Tags::new(at as u32, entries.len() as u32);
    tags.rules6and7::<BIG, false>(file.len() as u64, entries)?;
    if *next != [0; 4] {
        return with_mask::<BIG>(file, &mut tags, long::<BIG>(*next) as usize, ground);
    }
    if tags.rules27and9::<false>()? {
        in_tiles::<BIG>(file, &mut tags)?;
    } else {
        tags.rules10to12::<BIG, false, false>(file)?;
        pieces::rules13and14::<BIG, false, false>(file, &tags)?;
    }
    let raster = keys::rules15to19::<BIG>(file, &tags)?;
    ground::rules20to22::<BIG>(file, &tags, raster, ground)
}

/// Rules 10 to 14 of a picture in tiles, apart from the path of strips.
#[inline(never)]
fn in_tiles<const BIG: bool>(file: &[u8], tags: &mut Tags) -> Result<(), Refusal> {
    tags.rules10to12::<BIG, true, false>(file)?;
    pieces::rules13and14::<BIG, true, false>(file, tags)?;
    Ok(())
}

/// Rules 27 and 9 to 22 of an image that leads to a mask, then 28.
#[inline(never)]
fn with_mask<const BIG: bool>(
    file: &[u8],
    tags: &mut Tags,
    next: usize,
    ground: &mut Ground,
) -> Result<(), Refusal> {
    let tiled = tags.rules27and9::<false>()?;
    let span = if tiled {
        tags.rules10to12::<BIG, true, false>(file)?;
        pieces::rules13and14::<BIG, true, true>(file, tags)?
    } else {
        tags.rules10to12::<BIG, false, false>(file)?;
        pieces::rules13and14::<BIG, false, true>(file, tags)?
    };
    let raster = keys::rules15to19::<BIG>(file, tags)?;
    ground::rules20to22::<BIG>(file, tags, raster, ground)?;
    let image = mask::Image { tags, tiled, span };
    mask::rules4to14::<BIG>(file, &image, next).or_else(|refusal| refuse(28, refusal.rule))
}
