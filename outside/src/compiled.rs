//! The compiled library. Where the target is x86-64 it is linked; elsewhere
//! the C host is asked over a pipe. The calls are the same: `question` has
//! their one shape, `asking` makes questions of every call on a file, and
//! `expected` has what the second reader says to each.

pub mod asking;
mod expected;
mod question;
#[cfg(direct)]
#[path = "compiled/linked.rs"]
mod way;
#[cfg(not(direct))]
#[path = "compiled/piped.rs"]
mod way;

pub use expected::reply as expected_reply;
pub use question::{Numbers, Question, Reply, Symbol};
pub use way::ask;
#[cfg(direct)]
pub use way::{ground_into, rows_into, verdict_of, Raw};

use crate::reader::{self, Georeference};

/// Everything `petalbuzz_ground` gives on a file, doubles by their bits.
#[derive(Clone, Copy, Debug, PartialEq, Eq)]
pub struct Answer {
    pub verdict: u32,
    pub place: u32,
    /// 0 scaled, 1 affine.
    pub form: u32,
    pub six: [u64; 6],
    pub corners: [u64; 4],
}

impl Answer {
    /// The answer in the reply of `petalbuzz_ground`.
    pub fn of(reply: &Reply) -> Self {
        let Numbers { verdict, place, third: form, wide, .. } = reply.numbers;
        let six = std::array::from_fn(|at| wide[at]);
        let corners = std::array::from_fn(|at| wide[6 + at]);
        Answer { verdict, place, form, six, corners }
    }
}

/// What the second reader says the answer must be.
pub fn expected(file: &[u8]) -> Answer {
    let judged = reader::judge(file);
    let (form, six) = match judged.georeference {
        Georeference::Scaled(six) => (0, six),
        Georeference::Affine(six) => (1, six),
    };
    Answer {
        verdict: judged.verdict.number,
        place: judged.verdict.place,
        form,
        six: six.map(f64::to_bits),
        corners: judged.corners.map(f64::to_bits),
    }
}

/// What the fast judge gives.
pub fn fast(file: &[u8]) -> Answer {
    let mut ground = crate::fast::Ground::default();
    let (verdict, place) = crate::fast::judge(file, &mut ground);
    Answer {
        verdict,
        place,
        form: ground.form,
        six: ground.six.map(f64::to_bits),
        corners: ground.corners.map(f64::to_bits),
    }
}

/// Where the library says something else to these questions than the second
/// reader: one text each, at most ten.
pub fn faults(questions: &[Question]) -> Vec<String> {
    let replies = ask(questions);
    let asked = questions.iter().zip(&replies);
    asked.filter_map(|(asked, got)| got.fault(asked, &expected_reply(asked))).take(10).collect()
}

/// Where the compiled judge says something else than the second reader on
/// these files, verdict alone and with the ground.
pub fn disagreements(files: &[Vec<u8>]) -> Vec<String> {
    let both = |file| [Symbol::Judge, Symbol::Ground].map(|symbol| Question::on(symbol, file));
    faults(&files.iter().flat_map(|file| both(file)).collect::<Vec<Question>>())
}
