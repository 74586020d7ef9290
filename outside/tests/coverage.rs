//! Every clause of the list is broken and kept at its boundary by some
//! generated file, save those that no file can show; every variety of
//! accepted files is shown.

mod common;

use outside::generator::{random, targeted, Call, Case, Sample};
use outside::reader::clauses::{CLAUSES, UNREACHABLE};
use outside::reader::{judge_clause, judgements, varieties, VARIETIES};
use std::collections::{BTreeMap, BTreeSet};

fn unreachable(clause: &str) -> bool {
    UNREACHABLE.iter().any(|(name, _)| *name == clause)
}

/// The clauses of the list, less those no file can show, that are not in `seen`.
fn missing(seen: &BTreeSet<&str>) -> Vec<&'static str> {
    let reachable = CLAUSES.iter().copied().filter(|clause| !unreachable(clause));
    reachable.filter(|clause| !seen.contains(clause)).collect()
}

#[test]
fn every_clause_is_broken_by_some_case() {
    let cases: Vec<Case> = targeted(11);
    let seen: BTreeSet<&str> = cases.iter().map(|case| case.answer().1).collect();
    assert_eq!(missing(&seen), Vec::<&str>::new());
}

#[test]
fn every_clause_is_kept_at_its_boundary_by_some_case() {
    let cases: Vec<Case> = targeted(11);
    let kept = cases.iter().filter(|case| !case.broken).map(|case| case.clause);
    assert_eq!(missing(&kept.collect()), Vec::<&str>::new());
}

/// Both sides of every clause of a mask, in files of either byte order.
#[test]
fn every_clause_of_a_mask_is_broken_and_kept_in_either_byte_order() {
    let mut seen: BTreeSet<(&str, bool, u8)> = BTreeSet::new();
    let cases = targeted(16);
    seen.extend(cases.iter().filter(|case| case.clause.starts_with("28 ")).map(|case| {
        let clause = if case.broken { case.answer().1 } else { case.clause };
        (clause, case.broken, case.file[0])
    }));
    let clauses = CLAUSES.iter().filter(|clause| clause.starts_with("28 "));
    for clause in clauses.filter(|clause| !unreachable(clause)) {
        for (broken, order) in [(false, b'I'), (false, b'M'), (true, b'I'), (true, b'M')] {
            assert!(seen.contains(&(*clause, broken, order)), "{clause} {broken} {order}");
        }
    }
}

/// The third number of the key directory of a case.
fn minor(case: &Case) -> Option<usize> {
    match &case.call {
        Call::ReadBlock([directory, ..]) => {
            directory.get(4..6).map(|pair| common::held::number(true, pair, 0, 2) as usize)
        }
        _ => common::minor(&case.file),
    }
}

/// Rules 15 to 19, on a file and on a key block; the third number itself is
/// broken in neither.
#[test]
fn every_clause_of_the_keys_is_broken_and_kept_in_either_minor_revision() {
    let cases = targeted(15);
    let mut seen: BTreeMap<(&str, bool), BTreeSet<usize>> = BTreeMap::new();
    for case in &cases {
        seen.entry((case.clause, case.broken)).or_default().extend(minor(case));
    }
    let of_keys = |clause: &str| {
        let rule = clause.trim_start_matches("block ").split(' ').next().expect("a rule");
        ["15", "16", "17", "18", "19"].contains(&rule) && !clause.ends_with("under 4 numbers")
    };
    let mut told = 0;
    for ((clause, broken), minors) in seen.into_iter().filter(|((clause, _), _)| of_keys(clause)) {
        let own = broken && clause.ends_with("third number");
        assert_eq!(minors.contains(&0) && minors.contains(&1), !own, "{clause} {minors:?}");
        told += 1;
    }
    let reachable = CLAUSES.iter().filter(|clause| of_keys(clause) && !unreachable(clause));
    assert_eq!(told, 2 * reachable.count());
}

#[test]
fn no_file_breaks_a_clause_called_unreachable() {
    let cases = targeted(12).into_iter().map(|case| (case.answer().1, case.clause));
    for (answer, clause) in cases {
        assert!(!unreachable(answer) && !unreachable(clause), "{answer} {clause}");
    }
    for sample in random(12, 6_000) {
        let clause = judge_clause(&sample.file).1;
        assert!(!unreachable(clause), "{clause}");
        assert_ne!(clause, "unregistered clause");
    }
}

#[test]
fn the_lists_are_sound() {
    let names: BTreeSet<&str> = CLAUSES.iter().copied().collect();
    assert_eq!(names.len(), CLAUSES.len(), "no clause twice");
    for (name, reason) in UNREACHABLE {
        assert!(names.contains(name) && !reason.is_empty(), "{name}");
    }
}

#[test]
fn every_variety_is_shown_by_an_accepted_file() {
    let samples: Vec<Sample> = random(13, 6_000);
    let shown: BTreeSet<&str> =
        samples.iter().filter(|s| !s.damaged).flat_map(|s| varieties(&s.file)).collect();
    let missing: Vec<&&str> = VARIETIES.iter().filter(|label| !shown.contains(**label)).collect();
    assert!(missing.is_empty(), "{missing:?}");
    assert!(!shown.contains("unregistered variety"));
}

#[test]
fn half_of_the_mix_is_damaged_and_most_of_that_is_refused() {
    let samples = random(14, 4_000);
    let damaged: Vec<&Sample> = samples.iter().filter(|sample| sample.damaged).collect();
    assert_eq!(damaged.len() * 2, samples.len());
    let numbers = damaged.iter().map(|sample| judge_clause(&sample.file).0.number);
    let refused: Vec<u32> = numbers.filter(|number| *number != 0).collect();
    assert!(refused.len() * 4 > damaged.len() * 3, "{} refused", refused.len());
    let rules: BTreeSet<u32> = refused.into_iter().collect();
    let all: BTreeSet<u32> = judgements().filter(|number| *number != 0).collect();
    assert_eq!(rules, all);
}
