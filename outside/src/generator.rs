//! The seeded generator of test files: the same seed gives the same files on
//! every machine.
//!
//! `plan` describes a file and lays it out to bytes; `keyplan` does so for the
//! keys; `valid` draws files that keep every rule; `damage` spoils them at
//! random; `targeted` breaks each clause at its exact boundary and states the
//! verdict by construction; `large` makes files of very many pieces. A mosaic is
//! a file with more than one metadata tag, and the plan of a mask has the image's
//! with it.

pub mod damage;
pub mod keyplan;
pub mod large;
pub mod plan;
pub mod prng;
pub mod targeted;
pub mod valid;

pub use targeted::{targeted, targeted_files, Call, Case};

use plan::Laid;
use prng::Random;

/// A file of the random mix. One that is not damaged keeps every rule.
#[derive(Clone, Debug)]
pub struct Sample {
    pub file: Vec<u8>,
    pub damaged: bool,
}

/// File number `number` of the mix with this seed. Every second is damaged, one
/// of every sixteen in the header of its keys; two of every eight are mosaics, two
/// have a mask; and about half are made in minor revision 1.
pub fn sample(seed: u64, number: u64) -> Sample {
    let random = Random::new(seed).branch(number);
    let minor = random.branch(1).below(2) as u16;
    match number % 16 {
        2 | 3 | 10 | 11 => drawn(random, number, minor, valid::masked, damage::masked),
        6 | 7 | 14 | 15 => drawn(random, number, minor, valid::mosaic, damage::mosaic),
        13 => drawn(random, number, minor, valid::file, damage::header),
        _ => drawn(random, number, minor, valid::file, damage::damage),
    }
}

/// The same in the mix of files with a mask, all in minor revision 0.
pub fn masked_sample(seed: u64, number: u64) -> Sample {
    drawn(Random::new(seed).branch(number), number, 0, valid::masked, damage::masked)
}

/// The same in the mix without mosaics and masks, where all are made in minor
/// revision 0.
pub fn plain_sample(seed: u64, number: u64) -> Sample {
    drawn(Random::new(seed).branch(number), number, 0, valid::file, damage::damage)
}

fn drawn(
    mut random: Random,
    number: u64,
    minor: u16,
    valid: fn(&mut Random, u16) -> Laid,
    spoiled: fn(Laid, &mut Random) -> Vec<u8>,
) -> Sample {
    let damaged = number % 2 == 1;
    let laid = valid(&mut random, minor);
    let file = if damaged { spoiled(laid, &mut random) } else { laid.bytes };
    Sample { file, damaged }
}

/// The first `count` files of the mix with this seed.
pub fn random(seed: u64, count: u64) -> Vec<Sample> {
    (0..count).map(|number| sample(seed, number)).collect()
}
