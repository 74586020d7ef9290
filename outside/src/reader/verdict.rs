//! The verdict every call gives, and a refusal with the clause that made it.

use super::tables::{Rules, IN_FORCE};

/// Number 0 accepts; any other number is the first broken rule, at its place.
#[derive(Clone, Copy, Debug, PartialEq, Eq)]
pub struct Verdict {
    pub number: u32,
    pub place: u32,
}

/// The numbers that a judgement of a file can give: 0, rules 1 to 22 but 8, 27
/// and 28. The calls have 23 to 26 and 29 besides.
pub fn judgements() -> impl Iterator<Item = u32> {
    judgements_by(IN_FORCE)
}

/// The same by the rules as a request left them.
pub fn judgements_by(rules: Rules) -> impl Iterator<Item = u32> {
    let (tiles, masks) = (rules.families.len() > 1, rules.masks);
    (0..=22).chain([27, 28]).filter(move |number| match number {
        8 => !masks,
        27 => tiles,
        28 => masks,
        _ => true,
    })
}

/// The verdict of a file, or call, that breaks nothing.
pub const ACCEPTED: Verdict = Verdict { number: 0, place: 0 };

/// A refusal, and in words which clause of the rule was broken.
#[derive(Clone, Debug)]
pub struct Refusal {
    pub verdict: Verdict,
    pub clause: String,
}

impl Refusal {
    /// What a rule that a mask breaks is for its file: 28, at the rule's number.
    pub fn of_mask(self) -> Self {
        let verdict = Verdict { number: 28, place: self.verdict.number };
        Refusal { verdict, clause: format!("28 {}", self.clause) }
    }
}

/// Refuses by rule `number` at `place`; `what` names the clause.
pub fn refuse<T>(number: u32, place: u32, what: &str) -> Result<T, Refusal> {
    Err(Refusal { verdict: Verdict { number, place }, clause: format!("{number} {what}") })
}
