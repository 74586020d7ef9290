//! Key blocks that the compiled library writes: read back by it, and spoiled
//! and cut for the call that reads them.

mod common;

use common::held::same_keys;
use common::keys;
use common::questions::{accepted, agree};
use outside::compiled::asking::{block, needs, read_block};
use outside::compiled::{ask, Question, Reply};
use outside::generator::prng::Random;
use outside::generator::{targeted, Call};
use outside::reader::{judge, Judged};

/// The three runs of the block in a reply to the key block's call.
fn runs_of(question: &Question, reply: &Reply) -> [Vec<u8>; 3] {
    let mut rest = &reply.bytes[question.room()];
    std::array::from_fn(|at| {
        let (run, after) = rest.split_at(reply.numbers.wide[at] as usize);
        rest = after;
        run.to_vec()
    })
}

/// The files whose block fits, with the block that the library writes.
fn blocks(files: &[Vec<u8>]) -> Vec<(&Vec<u8>, [Vec<u8>; 3])> {
    let mut random = Random::new(68);
    let room = |file: &[u8]| needs(file).1 + 20;
    let questions: Vec<_> = files.iter().map(|file| block(file, room(file), &mut random)).collect();
    let replies = ask(&questions);
    let written = files.iter().zip(questions.iter().zip(&replies));
    let kept = written.filter(|(_, (_, reply))| reply.numbers.verdict == 0);
    kept.map(|(file, (question, reply))| (file, runs_of(question, reply))).collect()
}

#[test]
fn a_written_block_is_read_back() {
    let mut files = accepted(69, 3_000);
    let large = targeted(69).into_iter().filter(|case| matches!(case.call, Call::Block(_)));
    files.extend(large.map(|case| case.file));
    let blocks = blocks(&files);
    assert!(blocks.len() > 3_000, "{}", blocks.len());
    let questions: Vec<Question> = blocks.iter().map(|(_, runs)| read_block(runs)).collect();
    let mut of_minor = [0, 0];
    for ((file, runs), reply) in blocks.iter().zip(ask(&questions)) {
        let numbers = reply.numbers;
        let Judged { keys, minor, .. } = judge(file);
        assert_eq!((numbers.verdict, numbers.place), (0, 0));
        assert_eq!((numbers.third, numbers.fourth), (keys, minor));
        same_keys(file, runs.each_ref().map(Vec::as_slice));
        of_minor[minor as usize] += 1;
    }
    assert!(of_minor.iter().all(|blocks| *blocks > 1_000), "{of_minor:?}");
}

/// A block with one thing wrong, or only something behind it.
fn spoiled(runs: &[Vec<u8>; 3], random: &mut Random) -> [Vec<u8>; 3] {
    let mut runs = runs.clone();
    let run = random.below(3) as usize;
    let length = runs[run].len() as u64;
    match random.below(7) {
        0 => runs[run].truncate(random.below(length + 1) as usize),
        1 => runs[run].extend(random.bytes(9)),
        2 => runs.swap(run, (run + 1) % 3),
        3 => runs[run] = random.bytes(length as usize),
        4 => runs[0][4..6].copy_from_slice(&random.pick(&[[0, 0], [1, 0], [2, 0], [0, 1], [1, 1]])),
        _ if length > 0 => runs[run][random.below(length) as usize] = random.draw() as u8,
        _ => runs[run] = random.bytes(3),
    }
    runs
}

#[test]
fn spoiled_blocks_agree() {
    let mut random = Random::new(70);
    let files = accepted(70, 2_000);
    for run in blocks(&files).chunks(500) {
        let twenty = run.iter().flat_map(|(_, runs)| [runs; 20]);
        let spoiled: Vec<_> = twenty.map(|runs| spoiled(runs, &mut random)).collect();
        agree(&spoiled.iter().map(read_block).collect::<Vec<_>>());
    }
}

/// The block with one of its runs cut, at every length.
fn cut(runs: &[Vec<u8>; 3]) -> Vec<[Vec<u8>; 3]> {
    let places = (0..3).flat_map(|run| (0..runs[run].len()).map(move |length| (run, length)));
    let one = |(run, length): (usize, usize)| {
        let mut runs = runs.clone();
        runs[run].truncate(length);
        runs
    };
    places.map(one).collect()
}

#[test]
fn cut_blocks_agree() {
    let files = accepted(71, 100);
    let cut: Vec<_> = blocks(&files).iter().flat_map(|(_, runs)| cut(runs)).collect();
    agree(&cut.iter().map(read_block).collect::<Vec<_>>());
}

/// Every number there is in the place of the minor revision.
#[test]
fn blocks_of_every_minor_revision_agree() {
    let keys = keys().encode();
    let runs = |minor: u16| keys.clone().of_minor(minor).runs();
    let all: Vec<[Vec<u8>; 3]> = (0..=65_535).map(runs).collect();
    agree(&all.iter().map(read_block).collect::<Vec<_>>());
}

#[test]
fn any_bytes_as_a_block_agree() {
    let mut random = Random::new(72);
    let drawn = |random: &mut Random| {
        let length = random.pick(&[0, 1, 7, 8, 9, 40, 300]);
        random.bytes(length)
    };
    let mut runs: Vec<[Vec<u8>; 3]> =
        (0..10_000).map(|_| std::array::from_fn(|_| drawn(&mut random))).collect();
    // half of them begin as a directory does
    for (at, runs) in runs.iter_mut().step_by(2).enumerate() {
        let head = [1, 0, 1, 0, (at % 3) as u8, 0, (at % 12) as u8, (at % 97 / 96) as u8];
        runs[0].splice(..runs[0].len().min(8), head);
    }
    agree(&runs.iter().map(read_block).collect::<Vec<_>>());
}
