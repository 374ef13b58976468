//! Proofs at the limits of a tree: the deepest branch, the most nodes, and a part of each class.

use super::expr::*;
use super::limits::{extend, limit, write, Limit};
use super::rng::Rng;
use super::world::World;
use super::writer::{Tree, Writer};
use crate::kinds::*;
use crate::reader::Second;
use crate::Answer;

/// Nodes of rule 37 in a proof of the most nodes: each has two premises. With one node of rule 38 before them and the
/// closing nodes these are 1,536 nodes, and 3,071 records with the links that name all but the root.
const MOST_CUTS: usize = 767;

/// The leaf whose place a cut takes, by the cut's number.
type Place = fn(usize) -> usize;

pub fn proof_limits() -> Vec<Limit> {
    let mut list = Vec::new();
    deep(&mut list);
    full(&mut list);
    odd_parts(&mut list);
    list
}

/// Where the deepest branch stands.
#[derive(Clone, Copy, Debug, PartialEq)]
enum Stand {
    Alone,
    BeforeLeaf,
    AfterLeaf,
}

/// The deepest branch has 1,024 nodes: a sequent starts with one member, and each node with premises adds one at least.
/// In a deeper one the node before the last has too many members for its premise.
fn deep(list: &mut Vec<Limit>) {
    let world = World::bare();
    for depth in [1_000, 1_023, 1_024, 1_025] {
        for stand in [Stand::Alone, Stand::BeforeLeaf, Stand::AfterLeaf] {
            let (tree, last) = branch(depth, stand);
            let (files, records) = write(&world, &[], &twice(), &tree, false);
            let leaf_before = u64::from(stand == Stand::AfterLeaf);
            let answer = match depth > 1_024 {
                true => {
                    let nodes = depth as u64 - 1 + leaf_before;
                    Answer::new(17, 2, records[last] as u64, nodes)
                }
                false => Answer::accepted(tree.nodes.len() as u64),
            };
            let label = format!("{depth} nodes deep, {stand:?}");
            list.push(limit(Second::Proof, label, files, answer));
        }
    }
}

/// ¬¬⊥: by rule 38 it adds ⊥.
fn twice() -> Expr {
    not(not(bottom()))
}

/// A branch of so many nodes from ¬¬⊥ alone, and its last node but one.
fn branch(depth: usize, stand: Stand) -> (Tree, usize) {
    let mut tree = Tree::default();
    let (mut above, mut at) = (0, tree.add(32, vec![]));
    for level in 1..depth {
        above = at;
        at = match (level, stand) {
            (1, Stand::BeforeLeaf) => {
                let next = extend(&mut tree, at, 37, vec![bottom()]);
                // The second premise has ¬⊥ and ¬¬⊥.
                let leaf = tree.add(34, vec![not(bottom())]);
                tree.nodes[above].premises.push(leaf);
                next
            }
            (1, Stand::AfterLeaf) => {
                let leaf = tree.add(32, vec![]);
                tree.nodes[above].premises.push(leaf);
                extend(&mut tree, at, 37, vec![bottom()])
            }
            _ => extend(&mut tree, at, 38, vec![twice()]),
        };
    }
    (tree, above)
}

/// A file of 3,072 records with as many nodes as there can be; also with the last of the walk at fault. The nodes of rule
/// 37 have their part in the obligation, where ⊥ ends the chain of hypotheses; rule 38's takes the record that is left.
fn full(list: &mut Vec<Limit>) {
    let world = World::bare();
    let hypotheses = [twice(), bottom()];
    let shapes: [(&str, Place); 3] = [
        ("by first premises", |cut| (2 * cut).max(1)),
        ("by second premises", |cut| 2 * cut + 1),
        ("by both premises", |cut| cut + 1),
    ];
    for (shape, place) in shapes {
        for right in [true, false] {
            let mut tree = cuts(place);
            let last = last_walked(&tree);
            if !right {
                // Rule 33 needs ¬⊤.
                tree.nodes[last].kind = 33;
            }
            let (files, records) = write(&world, &hypotheses, &not(bottom()), &tree, false);
            let nodes = tree.nodes.len() as u64;
            let answer = match right {
                true => Answer::accepted(nodes),
                false => Answer::new(14, 2, records[last] as u64, nodes),
            };
            let label = format!("{nodes} nodes {shape}, right: {right}");
            list.push(limit(Second::Proof, label, files, answer));
        }
    }
}

/// Rule 38 and then cuts. The premises of cut k are the nodes 2k + 2 and 2k + 3.
fn cuts(place: Place) -> Tree {
    let mut tree = Tree::default();
    let root = tree.add(32, vec![]);
    extend(&mut tree, root, 38, vec![twice()]);
    for cut in 0..MOST_CUTS {
        let at = place(cut);
        let premises = [0; 2].map(|_| tree.add(32, vec![]));
        tree.nodes[at].kind = 37;
        tree.nodes[at].parts = vec![bottom()];
        tree.nodes[at].premises = premises.to_vec();
    }
    tree
}

fn last_walked(tree: &Tree) -> usize {
    let mut at = 0;
    while let Some(&premise) = tree.nodes[at].premises.last() {
        at = premise;
    }
    at
}

/// Rule 34 with a part of each class but a formula's, beside a node that is right.
fn odd_parts(list: &mut Vec<Limit>) {
    for which in 0..11 {
        let mut w = Writer::new(Rng::new(0));
        let bottom = w.push(BOTTOM, 0, 0, 0);
        let goal = w.push(NOT, bottom, 0, 0);
        let head = w.chain(&[bottom]);
        let name = w.name(b"n");
        let given = w.push(GIVEN, name, 0, 0);
        let set = w.push(SET_TYPE, given, 0, 0);
        let constant = w.push(CONSTANT, given, name, 0);
        let x = w.push(BOUND, 0, given, 0);
        let chosen = chosen_constant(&mut w, given, set);
        let all_types = w.push(ALL_TYPES, 1, bottom, 0);
        let types = w.chain(&[given]);
        let other = w.name(b"f");
        let function = w.push(FUNCTION, types, 0, other);
        w.end_obligation(false);
        let right = w.push(32, 0, 0, 0);
        let link = w.push(LINK, right, 0, 0);
        let items = [
            name, given, set, constant, x, chosen, all_types, types, function, right, link,
        ];
        let parts = w.push(LINK, items[which], 0, 0);
        let wrong = w.push(34, parts, 0, 0);
        let premises = w.chain(&[right, wrong]);
        let root = w.push(37, head, premises, 0);
        let answer = Answer::new(13, 2, wrong as u64, 3);
        let label = format!("part of odd class {which}");
        list.push(limit(
            Second::Proof,
            label,
            w.files(head, goal, root),
            answer,
        ));
    }
}

/// A choice of a constant.
fn chosen_constant(w: &mut Writer, ty: u32, set: u32) -> u32 {
    let name = w.name(b"s");
    let s = w.push(CONSTANT, set, name, 0);
    w.push(CHOICE, s, ty, 0)
}
