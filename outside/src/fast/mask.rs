//! The mask behind an image: rules 4 to 14 and 27, of which the number alone is
//! said.

use super::pieces::{self, Span};
use super::tags::Tags;
use super::{directory, refuse, Refusal};

/// The image before it, which keeps every rule.
pub struct Image<'t> {
    pub tags: &'t Tags,
    pub tiled: bool,
    pub span: Span,
}

#[inline(always)]
pub fn rules4to14<const BIG: bool>(file: &[u8], image: &Image, at: usize) -> Result<(), Refusal> {
    let (entries, next) = directory::<BIG>(file, at)?;
    let mut tags = Tags::new(at as u32, entries.len() as u32);
    tags.rules6and7::<BIG, true>(file.len() as u64, entries)?;
    if *next != [0; 4] {
        return refuse(8, 0);
    }
    (tags.width, tags.length) = (image.tags.width, image.tags.length);
    if tags.rules27and9::<true>()? {
        tags.rules10to12::<BIG, true, true>(file)?;
        pieces::rules13and14_of_mask::<BIG, true>(file, &tags, image.tags)?;
    } else {
        tags.rules10to12::<BIG, false, true>(file)?;
        pieces::rules13and14_of_mask::<BIG, false>(file, &tags, image.tags)?;
    }
    if !tags.parts().iter().any(|part| image.span.meets(part)) {
        return Ok(());
    }
    match image.tiled {
        false => pieces::rule14_of_image::<BIG, false>(file, image.tags, &tags)?,
        true => pieces::rule14_of_image::<BIG, true>(file, image.tags, &tags)?,
    };
    Ok(())
}
