//! The proved code next to the second implementation: same input, same answer.

pub mod bytes;
pub mod desk;
pub mod listing;
pub mod proofs;
pub mod shapes;
pub mod tally;
pub mod threads;
pub mod translation;

use second::reader::Second;
use second::Answer;

/// What is asked of both: the places before the walk, or the whole check.
#[derive(Clone, Copy, Debug, PartialEq)]
pub enum Asked {
    ReadProof,
    ReadDerivation,
    CheckProof,
    CheckDerivation,
}

impl Asked {
    pub const ALL: [Asked; 4] = [
        Asked::ReadProof,
        Asked::ReadDerivation,
        Asked::CheckProof,
        Asked::CheckDerivation,
    ];

    /// The kind of the second file.
    pub fn kind(self) -> Second {
        match self {
            Asked::ReadProof | Asked::CheckProof => Second::Proof,
            Asked::ReadDerivation | Asked::CheckDerivation => Second::Derivation,
        }
    }

    /// The second implementation's answer.
    pub fn second(self, obligation: &[u8], second: &[u8]) -> Answer {
        match self {
            Asked::ReadProof => second::read_proof(obligation, second),
            Asked::ReadDerivation => second::read_derivation(obligation, second),
            Asked::CheckProof => second::check_proof(obligation, second),
            Asked::CheckDerivation => second::check_derivation(obligation, second),
        }
    }

    /// The answer where the whole check answers so: a reading ends at place 12.
    pub fn of_whole(self, answer: Answer) -> Answer {
        match (self, answer.refusal) {
            (Asked::CheckProof | Asked::CheckDerivation, _) | (_, 1..=12) => answer,
            _ => Answer::accepted(0),
        }
    }
}

/// The number of generated cases: COMPARE_CASES, or the usual one.
pub fn generated_cases(usual: u64) -> u64 {
    match std::env::var("COMPARE_CASES") {
        Ok(text) => text.parse().expect("COMPARE_CASES is a number"),
        Err(_) => usual,
    }
}
