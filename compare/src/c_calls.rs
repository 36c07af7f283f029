//! Answers as the calls for C give them: one number (include/javendriky.h).

use crate::yard::Answer;

/// The version of the calls: JAVENDRIKY_VERSION of the header.
pub const VERSION: u32 = 12;

/// What an accepted trial adds to the moves taken where the budget ended it.
pub const BUDGET_ENDED: u32 = 500_000;

/// From here on an answer is a refusal's number times this, plus its place.
pub const REFUSED: u32 = 1_000_000;

/// A value, or a refusal with its place, as the one number that a call answers.
pub fn number(answer: Answer<u32>) -> u32 {
    match answer {
        Ok(value) => value,
        Err(refusal) => REFUSED * refusal.number + refusal.place,
    }
}
