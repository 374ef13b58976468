//! A second checker of proof files and derivation files over an obligation.
//!
//! The files are read into an owned [`reader::Book`]: types, terms and formulas are hash-consed, so that
//! equality by structure is equality of identifiers. The two walks then work on identifiers only.

pub mod arena;
pub mod coverage;
pub mod derivation;
pub mod generate;
pub mod kinds;
mod listing;
pub mod names;
pub mod numbers;
pub mod positions;
pub mod proof;
pub mod reader;
pub mod replace;
pub mod sequent;
pub mod typing;
pub mod vectors;
pub mod weight;
pub mod words;

pub use listing::listing;

use proof::Entered;
use reader::Second;

/// The four numbers: refusal, file, record, nodes.
#[derive(Clone, Copy, Debug, PartialEq, Eq, Hash, PartialOrd, Ord)]
pub struct Answer {
    pub refusal: u64,
    pub file: u64,
    pub record: u64,
    pub nodes: u64,
}

impl Answer {
    pub const fn new(refusal: u64, file: u64, record: u64, nodes: u64) -> Answer {
        Answer {
            refusal,
            file,
            record,
            nodes,
        }
    }

    pub const fn accepted(nodes: u64) -> Answer {
        Answer::new(0, 0, 0, nodes)
    }

    pub fn is_accepted(&self) -> bool {
        self.refusal == 0
    }
}

impl std::fmt::Display for Answer {
    fn fmt(&self, f: &mut std::fmt::Formatter<'_>) -> std::fmt::Result {
        let Answer {
            refusal,
            file,
            record,
            nodes,
        } = self;
        write!(f, "{refusal} {file} {record} {nodes}")
    }
}

/// The proof check: all places from the length to the walk.
pub fn check_proof(obligation: &[u8], proof: &[u8]) -> Answer {
    walk_proof(obligation, proof).0
}

/// The proof check with the nodes that its walk entered: none where an earlier place refuses.
fn walk_proof(obligation: &[u8], proof: &[u8]) -> (Answer, Vec<Entered>) {
    match reader::read(obligation, proof, Second::Proof) {
        Err(refusal) => (refusal, Vec::new()),
        Ok(book) => proof::walk(book),
    }
}

/// The derivation check: all places from the length to the walk.
pub fn check_derivation(obligation: &[u8], derivation: &[u8]) -> Answer {
    walk_derivation(obligation, derivation).0
}

/// The derivation check with how many nodes of each rule its walk entered.
fn walk_derivation(obligation: &[u8], derivation: &[u8]) -> (Answer, RuleCounts) {
    match reader::read(obligation, derivation, Second::Derivation) {
        Err(refusal) => (refusal, NO_NODES),
        Ok(book) => derivation::walk(book),
    }
}

/// The places before the walk (refusals 1 to 12) of a proof; 0, 0, 0, 0 if none refuses.
pub fn read_proof(obligation: &[u8], proof: &[u8]) -> Answer {
    places(obligation, proof, Second::Proof)
}

/// The places before the walk (refusals 1 to 12) of a derivation; 0, 0, 0, 0 if none refuses.
pub fn read_derivation(obligation: &[u8], derivation: &[u8]) -> Answer {
    places(obligation, derivation, Second::Derivation)
}

fn places(obligation: &[u8], second: &[u8], kind: Second) -> Answer {
    reader::read(obligation, second, kind)
        .err()
        .unwrap_or(Answer::accepted(0))
}

/// A check that also tells which rules it walked: `rules[k]` nodes of kind `k`.
pub fn check_counting(obligation: &[u8], second: &[u8], kind: Second) -> (Answer, RuleCounts) {
    match kind {
        Second::Proof => {
            let (answer, entered) = walk_proof(obligation, second);
            (answer, counts(&entered))
        }
        Second::Derivation => walk_derivation(obligation, second),
    }
}

/// How many nodes of each rule kind a walk entered.
pub type RuleCounts = [u64; 81];

const NO_NODES: RuleCounts = [0; 81];

fn counts(entered: &[Entered]) -> RuleCounts {
    let mut counts = NO_NODES;
    entered
        .iter()
        .for_each(|node| counts[node.kind as usize] += 1);
    counts
}
