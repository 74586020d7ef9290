//! The key block, written and read back, gives the same minor revision and the
//! same keys in the same order with the same values: equal number, location,
//! count and elements. The comparison (`common::held`) walks file and block apart
//! from the reader.

mod common;

use common::held::{number, same_keys};
use common::plan_like_a;
use outside::generator::keyplan::Encoded;
use outside::generator::{random, targeted, Call};
use outside::reader::{judge, key_block, read_block, Judged, Order, ReadBack, Verdict};

const ACCEPTED: Verdict = Verdict { number: 0, place: 0 };

/// The key block of an accepted file as its three runs; none with rule 24.
fn block(file: &[u8]) -> Option<[Vec<u8>; 3]> {
    let mut out = vec![0; 2_000_000];
    let block = key_block(file, &mut out);
    if block.verdict.number == 24 {
        return None;
    }
    assert_eq!(block.verdict, ACCEPTED);
    let [a, b, c] = block.lengths;
    Some([out[..a].to_vec(), out[a..a + b].to_vec(), out[a + b..a + b + c].to_vec()])
}

/// Writes the block of a file, if it has one, and reads it back; the minor
/// revision.
fn comes_back(file: &[u8]) -> Option<u32> {
    let [directory, doubles, characters] = block(file)?;
    let Judged { keys, minor, .. } = judge(file);
    let back = read_block(&directory, &doubles, &characters);
    assert_eq!(back, ReadBack { verdict: ACCEPTED, keys, minor });
    same_keys(file, [&directory, &doubles, &characters]);
    Some(minor)
}

#[test]
fn blocks_of_random_files_come_back() {
    let mut of_minor = [0, 0];
    for sample in random(41, 1_500) {
        if judge(&sample.file).verdict == ACCEPTED {
            let minor = comes_back(&sample.file).expect("a block");
            of_minor[minor as usize] += 1;
        }
    }
    assert!(of_minor.iter().sum::<u32>() >= 750, "{of_minor:?}");
    assert!(of_minor.iter().all(|blocks| *blocks > 300), "{of_minor:?}");
}

#[test]
fn blocks_of_targeted_files_come_back() {
    let mut of_minor = [0, 0];
    for case in targeted(42) {
        let block = matches!(case.call, Call::Block(_) | Call::Citation(_) | Call::Rows(_));
        if block && judge(&case.file).verdict == ACCEPTED {
            if let Some(minor) = comes_back(&case.file) {
                of_minor[minor as usize] += 1;
            }
        }
    }
    assert!(of_minor.iter().all(|blocks| *blocks > 80), "{of_minor:?}");
}

/// A file whose three tags are a written block has that block again.
#[test]
fn a_block_put_into_a_file_is_its_own_block() {
    for sample in random(43, 800).into_iter().filter(|sample| !sample.damaged) {
        let Some([directory, doubles, characters]) = block(&sample.file) else { continue };
        let of = |run: &[u8], width: usize| -> Vec<u64> {
            run.chunks(width).map(|chunk| number(true, chunk, 0, width)).collect()
        };
        let keys = Encoded {
            directory: of(&directory, 2).into_iter().map(|number| number as u16).collect(),
            doubles: of(&doubles, 8),
            characters: characters.clone(),
        };
        for order in [Order::Little, Order::Big] {
            let file = plan_like_a(order, &keys).lay().bytes;
            assert_eq!(
                block(&file),
                Some([directory.clone(), doubles.clone(), characters.clone()])
            );
        }
    }
}
