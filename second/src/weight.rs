//! Weights: each type, term and formula counted as often as it is named.

use crate::arena::{Arena, Head, Node};

pub const MOST_IN_PROOFS: u64 = 4_096;
pub const MOST_IN_DERIVATIONS: u64 = 16_384;

/// 1 plus the weights of the children. A constant names its type and a given type its name, but both
/// weigh 1: neither is a child of its node here.
pub fn weight(arena: &Arena, node: &Node) -> u64 {
    match node.head {
        Head::Given(_) | Head::TypeVariable(_) | Head::Constant(_) | Head::Bottom | Head::Top => 1,
        _ => node.children().iter().fold(1u64, |sum, &child| {
            sum.saturating_add(arena.facts(child).weight)
        }),
    }
}
