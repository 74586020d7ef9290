//! The compiled library held to the second reader, and files to ask about.

use outside::compiled::{faults, Question};
use outside::generator::sample;

/// Holds the library's replies to those of the second reader.
pub fn agree(questions: &[Question]) {
    let lines = faults(questions);
    assert!(lines.is_empty(), "{}", lines.join("\n"));
}

/// Accepted files of the mix.
pub fn accepted(seed: u64, count: usize) -> Vec<Vec<u8>> {
    let files = (0..).map(|number| sample(seed, 2 * number).file);
    files.take(count).collect()
}
