//! The tree on paper (paper 02, U2): each node that the proof check enters, with the rule behind it.

use crate::proof::Entered;
use crate::walk_proof;
use std::fmt::{self, Display};

/// The whole output: `tree 1`, a line for each node in walk order, and on a refusal a last line with the answer.
pub fn listing(obligation: &[u8], proof: &[u8]) -> Vec<u8> {
    let (answer, entered) = walk_proof(obligation, proof);
    let mut text = String::from("tree 1\n");
    entered.iter().for_each(|node| text += &format!("{node}\n"));
    if !answer.is_accepted() {
        text += &format!("refused {answer}\n");
    }
    text.into_bytes()
}

impl Display for Entered {
    fn fmt(&self, f: &mut fmt::Formatter<'_>) -> fmt::Result {
        let Entered {
            depth,
            record,
            kind,
            first_part,
        } = self;
        write!(f, "{depth} {record} {kind} {first_part}")
    }
}
