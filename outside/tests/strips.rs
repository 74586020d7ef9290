//! A file of strips that carries no tag of tiles is judged by request C-11 as
//! document 01 alone judges it: by the table without those tags and without rule
//! 27. `texts` does so for request C-12, `revision` for request C-13, `mask` for
//! request C-14.

mod common;

use common::kept::{files, keep};
use common::tags;
use outside::generator::{targeted, Case};
use outside::reader::tables::{Family, C_11, DOCUMENT_01};
use outside::reader::{judge_by, judgements_by};
use std::collections::BTreeSet;

/// Whether a file carries tags of strips and none of tiles. One without a whole
/// directory carries no tags, and counts too.
fn in_strips_alone(file: &[u8]) -> bool {
    let tags = tags(file);
    let carries = |family: Family| family.tags().any(|tag| tags.contains(&tag));
    tags.is_empty() || carries(Family::Strips) && !carries(Family::Tiles)
}

#[test]
fn a_file_without_tags_of_tiles_keeps_its_verdict_its_place_and_its_list() {
    let kept = files(81).filter(|file| in_strips_alone(file));
    let (compared, numbers) = keep(kept, DOCUMENT_01, C_11);
    assert_eq!(numbers, judgements_by(DOCUMENT_01).collect::<BTreeSet<u32>>());
    assert!(compared > 10_000, "{compared} files");
}

/// Every other file is one of tiles or of no family, and by document 01 it was
/// accepted or refused by rule 9 or a later one.
#[test]
fn only_tiles_and_files_of_no_family_are_judged_anew() {
    let mut anew = 0;
    for file in files(81) {
        let (was, is) = (judge_by(&file, DOCUMENT_01).verdict, judge_by(&file, C_11).verdict);
        if was != is {
            assert!(!in_strips_alone(&file), "{file:02X?}");
            assert!(was.number == 0 || was.number >= 9, "{was:?} {is:?}");
            anew += 1;
        }
    }
    assert!(anew > 5_000, "{anew} files");
}

/// Tags of tiles beside strips were tags outside the table.
#[test]
fn document_01_lets_tags_of_tiles_stand_beside_strips() {
    let mut beside = 0;
    let both = |case: &Case| case.broken && case.clause == "27 both families";
    for case in targeted(83).into_iter().filter(both) {
        let was = judge_by(&case.file, DOCUMENT_01).verdict.number;
        if was == 0 {
            assert_eq!(judge_by(&case.file, C_11).verdict.number, 27);
            beside += 1;
        }
    }
    assert!(beside > 20, "{beside} files");
}
