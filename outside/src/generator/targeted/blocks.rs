//! What only the reader of a key block can meet: short runs, left-over bytes
//! of a last element, runs longer than an index can tell.

use super::bases::{few_keys, many_keys};
use super::{rule_of, Call, Cases};
use crate::generator::keyplan::{Encoded, Held};

pub fn cases(cases: &mut Cases) {
    short_directories(cases);
    left_over_bytes(cases);
    short_doubles(cases);
    long_characters(cases);
}

fn broken(cases: &mut Cases, clause: &str, runs: [Vec<u8>; 3], place: u32) {
    let want = (rule_of(clause), place);
    cases.add(clause, true, Call::ReadBlock(runs), Vec::new(), want);
}

fn kept(cases: &mut Cases, clause: &str, runs: [Vec<u8>; 3]) {
    cases.add(clause, false, Call::ReadBlock(runs), Vec::new(), (0, 0));
}

fn short_directories(cases: &mut Cases) {
    let clause = "block 15 under 4 numbers";
    let [directory, doubles, characters] = many_keys().encode().runs();
    for length in 0..8 {
        let cut = [directory[..length].to_vec(), doubles.clone(), characters.clone()];
        broken(cases, clause, cut, 0);
    }
    broken(cases, clause, [Vec::new(), Vec::new(), Vec::new()], 0);
    for minor in [0, 1] {
        let bare = [vec![1, 0, 1, 0, minor, 0, 0, 0], Vec::new(), Vec::new()];
        cases.add(clause, false, Call::ReadBlock(bare), Vec::new(), (18, 1024));
    }
}

/// Bytes of an element that is not whole are ignored.
fn left_over_bytes(cases: &mut Cases) {
    let clause = "block 15 count below 4 + 4K";
    for minor in [0, 1] {
        let runs = many_keys().encode().of_minor(minor).runs();
        for (run, most) in [(0, 1), (1, 7)] {
            for more in 1..=most {
                let mut longer = runs.clone();
                longer[run].extend(vec![0xFF; more]);
                kept(cases, clause, longer);
            }
        }
        let [mut few, doubles, characters] = few_keys().encode().of_minor(minor).runs();
        few.pop();
        broken(cases, clause, [few, doubles, characters], 0);
    }
}

/// A run of 1 to 7 bytes holds no double; of 8 to 15 it holds one.
fn short_doubles(cases: &mut Cases) {
    let keys = few_keys().with(2057, Held::Doubles(vec![7])).with(2058, Held::Doubles(vec![9]));
    let [directory, doubles, characters] = keys.encode().runs();
    for length in 0..=16 {
        let runs = [directory.clone(), doubles[..length].to_vec(), characters.clone()];
        match length {
            0 => broken(cases, "block 17 DOUBLE absent", runs, 2057),
            1..=7 => broken(cases, "block 17 DOUBLE index", runs, 2057),
            8..=15 => broken(cases, "block 17 DOUBLE index", runs, 2058),
            _ => kept(cases, "block 17 DOUBLE index", runs),
        }
    }
}

/// The last index there is, at the end of a run and just past it.
fn long_characters(cases: &mut Cases) {
    let clause = "block 17 other index at 34737";
    let keys = few_keys().with(60003, Held::Raw(34737, 1, 65_535));
    let long = Encoded { characters: vec![b'x'; 65_536], ..keys.encode() }.runs();
    kept(cases, clause, long.clone());
    let mut short = long;
    short[2].pop();
    broken(cases, clause, short, 60_003);
}
