//! The rules on a file, each after the one before, and what an accepted file
//! holds.

use super::directory::Directory;
use super::ground::{corners, rules20to21, Georeference};
use super::keys::{number_of, rules15to19, KeyEntry, Runs};
use super::pieces::{head, parts, pieces, rule13, rule14, Pieces};
use super::tables::*;
use super::tags::{rule10, rule11, rule12, rule9};
use super::verdict::Refusal;

/// A directory with its picture: the image's, or the mask's.
pub struct Picture<'a> {
    pub directory: Directory<'a>,
    pub family: Family,
    pub pieces: Pieces,
}

/// What an accepted file holds.
pub struct Accepted<'a> {
    pub image: Picture<'a>,
    pub mask: Option<Picture<'a>>,
    pub runs: Runs<'a>,
    /// The minor revision of the key directory.
    pub minor: u16,
    pub keys: Vec<KeyEntry>,
    pub georeference: Georeference,
    pub corners: [f64; 4],
}

/// Rules 1 to 22 in order of number, with 27 directly after 8, as a request
/// left them; then 28.
pub fn examine(file: &[u8], rules: Rules) -> Result<Accepted<'_>, Refusal> {
    let image = picture(Directory::open(file, rules)?)?;
    let directory = &image.directory;
    rule14(&image.pieces, "", &[vec![head()], parts(directory, "")].concat())?;
    let runs = runs(directory);
    let (minor, keys) = rules15to19(&runs, rules)?;
    let georeference = rules20to21(directory)?;
    let raster = number_of(&keys, RASTER).expect("rule 18 is kept");
    let corners = corners(directory, raster, &georeference)?;
    let mask = match directory.leads_to() {
        Some(at) => Some(mask(&image, at).map_err(Refusal::of_mask)?),
        None => None,
    };
    Ok(Accepted { image, mask, runs, minor, keys, georeference, corners })
}

/// Rules 6 to 13 and 27 on a directory, by its own table.
fn picture(directory: Directory<'_>) -> Result<Picture<'_>, Refusal> {
    directory.rule6()?;
    directory.rule7()?;
    directory.rule8()?;
    let family = directory.rule27()?;
    rule9(&directory, family)?;
    rule10(&directory)?;
    rule11(&directory)?;
    rule12(&directory, family)?;
    let pieces = pieces(&directory, family);
    rule13(&directory, &pieces)?;
    Ok(Picture { directory, family, pieces })
}

/// Rules 4 to 14 and 27 on the mask of an image that keeps rules 1 to 22. By 14
/// neither picture is on the list of both directories; that the image is not on
/// its own part of it is known.
fn mask<'a>(image: &Picture<'a>, at: u64) -> Result<Picture<'a>, Refusal> {
    let mask = picture(image.directory.mask(at)?)?;
    let (its, own) = (parts(&image.directory, " of the image"), parts(&mask.directory, ""));
    rule14(&image.pieces, " of the image", &own)?;
    rule14(&mask.pieces, "", &[vec![head()], its, own].concat())?;
    Ok(mask)
}

/// The values of 34735, 34736 and 34737; rules 9 and 10 are kept.
fn runs<'a>(directory: &Directory<'a>) -> Runs<'a> {
    let run = |tag: u16| directory.find(tag).map(|entry| directory.bytes(entry));
    Runs {
        order: directory.order,
        directory: run(KEY_DIRECTORY).expect("rule 9 is kept"),
        doubles: run(DOUBLES),
        characters: run(CHARACTERS),
    }
}
