//! What a request leaves as it was: files to look at, and a look at each by the
//! rules before the request and by those after it.

use outside::generator::{random, targeted_files};
use outside::reader::tables::Rules;
use outside::reader::{judge_by, reading_list_by};
use std::collections::BTreeSet;

/// The files of the targeted cases of the plain judgement, and of the mix.
pub fn files(seed: u64) -> impl Iterator<Item = Vec<u8>> {
    targeted_files(seed).chain(random(seed + 1, 20_000).into_iter().map(|sample| sample.file))
}

/// Sees that each file has the same answer and the same reading list by both
/// rules. How many files there were, and the numbers of their verdicts.
pub fn keep(
    files: impl Iterator<Item = Vec<u8>>,
    before: Rules,
    after: Rules,
) -> (usize, BTreeSet<u32>) {
    let (mut compared, mut numbers) = (0, BTreeSet::new());
    for file in files {
        let judged = judge_by(&file, after);
        assert_eq!(judge_by(&file, before), judged, "{file:02X?}");
        let lists = [before, after].map(|rules| reading_list_by(&file, rules));
        assert_eq!(lists[0], lists[1], "{file:02X?}");
        numbers.insert(judged.verdict.number);
        compared += 1;
    }
    (compared, numbers)
}
