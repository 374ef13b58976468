//! Large cases: many members, deep branches, full files. Rare among the seeds, as each costs much.

use super::expect::Expect;
use super::expr::*;
use super::proofs::Draft;
use super::world::World;
use super::writer::Tree;

/// A proof that takes the sequent to about 1,024 members.
pub fn many_members(world: &mut World) -> (Draft, Expect) {
    let f = world.closed_formula(1);
    let g = world.closed_formula(1);
    let both = and(f.clone(), g.clone());
    let neither = not(implies(f.clone(), g.clone()));
    let twice = not(not(f.clone()));
    let mut hypotheses = vec![bottom(), both.clone(), neither.clone(), twice.clone()];
    let repeats = world.rng.below(250);
    hypotheses.extend(vec![f.clone(); repeats]);
    let mut members = hypotheses.len() + 1;
    let target = *world
        .rng
        .pick(&[1_020, 1_023, 1_024, 1_024, 1_025, 1_025, 1_026]);
    let mut tree = Tree::default();
    let mut at = tree.add(0, vec![]);
    while members < target {
        let left = target - members;
        let (kind, part, more) = match world.rng.below(8) {
            0 => (37, f.clone(), 1),
            1 => (38, twice.clone(), 1),
            2 if left > 1 => (40, neither.clone(), 2),
            _ if left > 1 => (39, both.clone(), 2),
            _ => (38, twice.clone(), 1),
        };
        tree.nodes[at].kind = kind;
        tree.nodes[at].parts = vec![part];
        let next = tree.add(32, vec![]);
        tree.nodes[at].premises.push(next);
        if kind == 37 {
            let side = tree.add(32, vec![]);
            tree.nodes[at].premises.push(side);
        }
        at = next;
        members += more;
    }
    tree.nodes[at].kind = 32;
    let draft = Draft {
        hypotheses,
        negated_goal: not(g),
        tree,
    };
    let expect = match members > 1_024 {
        true => Expect::Refusal(17),
        false => Expect::Accepted,
    };
    (draft, expect)
}

/// A derivation about 8,192 nodes deep.
pub fn deep(world: &mut World, depth: usize) -> (Draft, Expect) {
    let f = world.closed_formula(1);
    let goal = world.closed_formula(1);
    let h = world.polymorphic(1);
    let ty = world.closed_type(1);
    let c = constant(world.new_reserved(ty.clone()));
    let hypotheses = vec![f.clone(), goal.clone(), h];
    let plain: Vec<Expr> = hypotheses.iter().map(Expr::plain).collect();
    let (f, goal_now) = (plain[0].clone(), plain[1].clone());
    let over = plain_all(goal_now.clone());
    let discharged = implies(f.clone(), goal_now.clone());
    let mut tree = Tree::default();
    let mut at = tree.add(0, vec![]);
    let mut level = 1;
    let mut more_members = 0;
    let extend = |tree: &mut Tree, at: usize, kind: u32, parts: Vec<Expr>| {
        tree.nodes[at].kind = kind;
        tree.nodes[at].parts = parts;
        let next = tree.add(0, vec![]);
        tree.nodes[at].premises.push(next);
        next
    };
    while level < depth {
        let two = depth - level >= 2;
        match world.rng.below(16) {
            0 if two => {
                // Up to ∀ and down again, over nothing.
                at = extend(&mut tree, at, 78, vec![over.clone(), c.clone()]);
                at = extend(&mut tree, at, 77, vec![c.clone(), goal_now.clone()]);
                level += 2;
            }
            1 if two && more_members < 1_500 => {
                at = extend(&mut tree, at, 74, vec![discharged.clone()]);
                at = extend(&mut tree, at, 73, vec![]);
                level += 2;
                more_members += 1;
            }
            2 => {
                let side = tree.add(66, vec![]);
                tree.nodes[at].premises.push(side);
                at = extend(&mut tree, at, 67, vec![f.clone()]);
                level += 1;
                more_members += 1;
            }
            _ => {
                at = extend(&mut tree, at, 65, plain.clone());
                level += 1;
                more_members = 0;
            }
        }
    }
    tree.nodes[at].kind = 66;
    let draft = Draft {
        hypotheses,
        negated_goal: not(goal),
        tree,
    };
    let expect = match depth > 8_192 {
        true => Expect::Refusal(18),
        false => Expect::Accepted,
    };
    (draft, expect)
}

/// A derivation that takes the sequent to about 2,048 members.
pub fn many_kept(world: &mut World) -> (Draft, Expect) {
    let f = world.closed_formula(1);
    let goal = world.closed_formula(1);
    let hypotheses = vec![f.clone(), goal.clone()];
    let (f, plain_goal) = (f.plain(), goal.plain());
    let start = *world.rng.pick(&[2_000, 2_040, 2_047, 2_048, 2_049]);
    let mut kept = vec![f.clone(); start - 1];
    kept.insert(world.rng.below(start), plain_goal.clone());
    let mut tree = Tree::default();
    let mut at = tree.add(65, kept);
    let mut members = start;
    let mut expect = match members > 2_048 {
        true => Expect::Refusal(17),
        false => Expect::Accepted,
    };
    let steps = match expect {
        Expect::Accepted => world.rng.below(60),
        _ => 0,
    };
    // Each step leads back to the same goal with one member more.
    for _ in 0..steps {
        let (next, first) = match world.rng.below(3) {
            0 => {
                let r5 = tree.add(75, vec![plain_goal.clone()]);
                let (next, no) = (tree.add(66, vec![]), tree.add(66, vec![]));
                tree.nodes[r5].premises = vec![next, no];
                (next, r5)
            }
            1 => {
                let r4 = tree.add(74, vec![implies(f.clone(), plain_goal.clone())]);
                let r3 = tree.add(73, vec![]);
                let next = tree.add(66, vec![]);
                tree.nodes[r4].premises.push(r3);
                tree.nodes[r3].premises.push(next);
                (next, r4)
            }
            _ => {
                let br4 = tree.add(67, vec![f.clone()]);
                let (side, next) = (tree.add(66, vec![]), tree.add(66, vec![]));
                tree.nodes[br4].premises = vec![side, next];
                (next, br4)
            }
        };
        // The step takes the place of the leaf that stood here.
        match at {
            0 => tree.nodes[0].premises.push(first),
            _ => {
                tree.nodes[at] = tree.nodes[first].clone();
            }
        }
        members += 1;
        if members > 2_048 {
            expect = Expect::Refusal(17);
        }
        at = next;
    }
    if at == 0 {
        let leaf = tree.add(66, vec![]);
        tree.nodes[0].premises.push(leaf);
    }
    let draft = Draft {
        hypotheses,
        negated_goal: not(goal),
        tree: ordered(tree),
    };
    (draft, expect)
}

/// The same tree with every premise numbered after its node, as the writer wants it.
fn ordered(tree: Tree) -> Tree {
    let mut order = Vec::with_capacity(tree.nodes.len());
    let mut stack = vec![0];
    while let Some(node) = stack.pop() {
        order.push(node);
        stack.extend(tree.nodes[node].premises.iter().rev());
    }
    let mut number = vec![0; tree.nodes.len()];
    for (i, &node) in order.iter().enumerate() {
        number[node] = i;
    }
    let nodes = order
        .iter()
        .map(|&i| {
            let mut node = tree.nodes[i].clone();
            node.premises.iter_mut().for_each(|p| *p = number[*p]);
            node
        })
        .collect();
    Tree { nodes }
}
