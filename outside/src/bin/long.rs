//! The longer comparison: long SEED COUNT generates COUNT files and holds
//! every call of the library and the fast judge to the second reader.

use outside::compiled::asking::every_call;
use outside::compiled::{expected, fast, faults, Question};
use outside::generator::prng::Random;
use outside::generator::sample;
use std::process::ExitCode;
use std::time::Instant;

/// Files are generated and judged in runs of so many.
const RUN: u64 = 2_000;

fn main() -> ExitCode {
    let words: Vec<u64> = std::env::args().skip(1).filter_map(|word| word.parse().ok()).collect();
    let &[seed, count] = words.as_slice() else {
        eprintln!("long SEED COUNT");
        return ExitCode::FAILURE;
    };
    let (start, mut random) = (Instant::now(), Random::new(seed));
    for first in (0..count).step_by(RUN as usize) {
        let end = count.min(first + RUN);
        let files: Vec<Vec<u8>> = (first..end).map(|number| sample(seed, number).file).collect();
        let asked = files.iter().flat_map(|file| every_call(file, &mut random));
        let mut lines = faults(&asked.collect::<Vec<Question>>());
        let wrong = files.iter().filter(|file| fast(file) != expected(file));
        lines.extend(wrong.map(|file| format!("the fast judge differs on {file:02X?}")));
        if !lines.is_empty() {
            lines.iter().for_each(|line| println!("{line}"));
            return ExitCode::FAILURE;
        }
        println!("{end} files agree, {:.0} s", start.elapsed().as_secs_f64());
    }
    ExitCode::SUCCESS
}
