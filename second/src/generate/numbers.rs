//! One node of an accepted tree loses its last part or premise or gets one more at the end. The rest of it stays, so that
//! the number alone is wrong.

use super::expect::Expect;
use super::expr::bottom;
use super::near::written;
use super::proofs::{Draft, Shape};
use super::rng::Rng;
use super::tree_damage::{node_with, prune};
use super::world::World;
use super::{draft, Case};
use crate::numbers::Off;
use crate::reader::Second;

/// The rules take turns, and each rule's ways to be off, so that rare ones come as often as others: trees are made
/// until one has the rule.
pub fn number_case(kind: Second, turn: u64, rng: &mut Rng) -> Case {
    let rules: Vec<u32> = match kind {
        Second::Proof => (32..=46).collect(),
        Second::Derivation => (64..=80).collect(),
    };
    let (turn, count) = (turn as usize, rules.len());
    let (rule, way) = (rules[turn % count], turn / count);
    loop {
        let mut world = World::new(Rng::new(rng.next()));
        let mut draft = draft(kind, &mut world, shape(rng));
        let Some(off) = off_by_one(&mut world, &mut draft, rule, way) else {
            continue;
        };
        let what = format!("{rule}, one {}", off.name());
        if let Some(case) = written(kind, rng, &world, &draft, Expect::Refusal(13), &what) {
            return case;
        }
    }
}

/// Light formulas and nodes enough for many rules.
fn shape(rng: &mut Rng) -> Shape {
    Shape {
        hypotheses: rng.below(4),
        depth: 2,
        budget: rng.range(1, 12),
        deep: rng.chance(30),
        weight: 60,
    }
}

/// None if the tree has no such node.
fn off_by_one(world: &mut World, draft: &mut Draft, rule: u32, way: usize) -> Option<Off> {
    let nodes = &draft.tree.nodes;
    let at = node_with(world, &draft.tree, |i| nodes[i].kind == rule)?;
    let (parts, premises) = (nodes[at].parts.len(), nodes[at].premises.len());
    let mut ways = Off::ALL.to_vec();
    ways.retain(|off| off.can_occur(rule, parts, premises));
    let off = ways[way % ways.len()];
    let node = &mut draft.tree.nodes[at];
    match off {
        Off::PartFewer => {
            node.parts.pop();
        }
        Off::PartMore => {
            let again = node.parts.last().cloned();
            node.parts.push(again.unwrap_or(bottom()));
        }
        Off::PremiseFewer => {
            node.premises.pop();
            prune(&mut draft.tree);
        }
        Off::PremiseMore => {
            let leaf = if rule < 64 { 32 } else { 66 };
            let added = draft.tree.add(leaf, vec![]);
            draft.tree.nodes[at].premises.push(added);
        }
    }
    Some(off)
}
