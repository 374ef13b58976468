//! Damage to the trees of accepted cases, before they are written.

use super::expect::Expect;
use super::expr::*;
use super::proofs::Draft;
use super::world::{Scope, World};
use super::writer::{Tree, NO_NODE};
use crate::kinds::*;

type TreeDamage = fn(&mut World, &mut Draft) -> Option<Expect>;

/// Damage to trees, of proofs and derivations alike. None where it cannot be done.
pub const TREE_DAMAGE: &[(&str, TreeDamage)] = &[
    ("premises swapped", swap_premises),
    ("premise dropped", drop_premise),
    ("premise added", add_premise),
    ("premise no node", premise_no_node),
    ("part dropped", drop_part),
    ("part added", add_part),
    ("parts swapped", swap_parts),
    ("part of another class", part_of_another_class),
    ("part another formula", part_another),
    ("part changed inside", part_changed_inside),
    ("⊤ for ¬⊥ or back", exchange_truth),
    ("choice changed", change_choice),
    ("rule changed", change_rule),
    ("node shared", share_node),
    ("node unnamed", unnamed_node),
    ("branches crossed", cross_branches),
    ("constant not fresh", not_fresh),
    ("constant of a branch above", not_fresh_above),
    ("binders not counted", naive_instance),
    ("open part", open_part),
    ("types of kind 22 turned", turn_types),
    ("closing at once", close_at_once),
    ("hypothesis dropped", drop_hypothesis),
    ("goal another", another_goal),
];

fn is_derivation(draft: &Draft) -> bool {
    draft.tree.nodes[0].kind >= 64
}

fn any_node(world: &mut World, draft: &Draft) -> usize {
    world.rng.below(draft.tree.nodes.len())
}

/// A random node for which the test holds.
pub fn node_with(world: &mut World, tree: &Tree, test: impl Fn(usize) -> bool) -> Option<usize> {
    let count = tree.nodes.len();
    let from = world.rng.below(count);
    (0..count).map(|i| (from + i) % count).find(|&i| test(i))
}

/// Leaves out the nodes that are no longer reached, the order kept.
pub fn prune(tree: &mut Tree) {
    let mut reached = vec![false; tree.nodes.len()];
    reached[0] = true;
    for i in 0..tree.nodes.len() {
        if reached[i] {
            let premises = tree.nodes[i].premises.iter();
            (premises.filter(|&&p| p != NO_NODE)).for_each(|&p| reached[p] = true);
        }
    }
    let mut number = vec![0; tree.nodes.len()];
    let mut kept = Vec::new();
    for (i, node) in std::mem::take(&mut tree.nodes).into_iter().enumerate() {
        number[i] = kept.len();
        if reached[i] {
            kept.push(node);
        }
    }
    for node in &mut kept {
        let premises = node.premises.iter_mut();
        (premises.filter(|p| **p != NO_NODE)).for_each(|p| *p = number[*p]);
    }
    tree.nodes = kept;
}

fn swap_premises(world: &mut World, draft: &mut Draft) -> Option<Expect> {
    let nodes = &draft.tree.nodes;
    let node = node_with(world, &draft.tree, |i| nodes[i].premises.len() == 2)?;
    draft.tree.nodes[node].premises.swap(0, 1);
    Some(Expect::Any)
}

fn drop_premise(world: &mut World, draft: &mut Draft) -> Option<Expect> {
    let nodes = &draft.tree.nodes;
    let node = node_with(world, &draft.tree, |i| !nodes[i].premises.is_empty())?;
    let premises = &mut draft.tree.nodes[node].premises;
    let which = world.rng.below(premises.len());
    premises.remove(which);
    // With the nodes above it left there, they are named no more.
    if world.rng.chance(30) {
        return Some(Expect::Refusal(12));
    }
    prune(&mut draft.tree);
    Some(Expect::Refusal(13))
}

fn add_premise(world: &mut World, draft: &mut Draft) -> Option<Expect> {
    let node = any_node(world, draft);
    let kind = match is_derivation(draft) {
        true => *world.rng.pick(&[64, 66, 68, 80]),
        false => *world.rng.pick(&[32, 33]),
    };
    let added = draft.tree.add(kind, vec![]);
    let premises = &mut draft.tree.nodes[node].premises;
    let place = world.rng.below(premises.len() + 1);
    premises.insert(place, added);
    Some(Expect::Refusal(13))
}

/// A chain of premises that runs over a record that is no rule node.
fn premise_no_node(world: &mut World, draft: &mut Draft) -> Option<Expect> {
    let nodes = &draft.tree.nodes;
    let node = node_with(world, &draft.tree, |i| !nodes[i].premises.is_empty())?;
    let premises = &mut draft.tree.nodes[node].premises;
    let which = world.rng.below(premises.len());
    match world.rng.chance(30) {
        true => premises.insert(which, NO_NODE),
        false => premises[which] = NO_NODE,
    }
    prune(&mut draft.tree);
    Some(Expect::Refusal(13))
}

fn drop_part(world: &mut World, draft: &mut Draft) -> Option<Expect> {
    let nodes = &draft.tree.nodes;
    let node = node_with(world, &draft.tree, |i| !nodes[i].parts.is_empty())?;
    let node = &mut draft.tree.nodes[node];
    let which = world.rng.below(node.parts.len());
    node.parts.remove(which);
    Some(match node.kind {
        65 => Expect::Any,
        _ => Expect::Refusal(13),
    })
}

fn add_part(world: &mut World, draft: &mut Draft) -> Option<Expect> {
    let node = any_node(world, draft);
    let derivation = is_derivation(draft);
    let added = match world.rng.below(3) {
        0 if !draft.tree.nodes[node].parts.is_empty() => {
            world.rng.pick(&draft.tree.nodes[node].parts).clone()
        }
        1 => {
            let ty = world.closed_type(1);
            world.term(&ty, &Scope::default(), 1)
        }
        _ => world.closed_formula(1),
    };
    let added = if derivation { added.plain() } else { added };
    let node = &mut draft.tree.nodes[node];
    let place = world.rng.below(node.parts.len() + 1);
    node.parts.insert(place, added);
    Some(match node.kind {
        65 => Expect::Any,
        _ => Expect::Refusal(13),
    })
}

fn swap_parts(world: &mut World, draft: &mut Draft) -> Option<Expect> {
    let nodes = &draft.tree.nodes;
    let node = node_with(world, &draft.tree, |i| nodes[i].parts.len() >= 2)?;
    let parts = &mut draft.tree.nodes[node].parts;
    let first = world.rng.below(parts.len());
    let second = world.rng.below(parts.len());
    parts.swap(first, second);
    Some(Expect::Any)
}

fn part_of_another_class(world: &mut World, draft: &mut Draft) -> Option<Expect> {
    let derivation = is_derivation(draft);
    let nodes = &draft.tree.nodes;
    let node = node_with(world, &draft.tree, |i| !nodes[i].parts.is_empty())?;
    let node = &mut draft.tree.nodes[node];
    let which = world.rng.below(node.parts.len());
    let part = node.parts[which].clone();
    let ty = world.closed_type(1);
    let another = match world.rng.below(3) {
        0 if !is_type(part.kind()) => ty,
        1 if !is_term(part.kind()) => world.term(&ty, &Scope::default(), 1),
        _ if !is_formula(part.kind()) => world.closed_formula(1),
        _ => ty,
    };
    if is_type(another.kind()) && is_type(part.kind()) {
        return None;
    }
    node.parts[which] = match derivation && !is_type(another.kind()) {
        true => another.plain(),
        false => another,
    };
    Some(Expect::Refusal(13))
}

fn part_another(world: &mut World, draft: &mut Draft) -> Option<Expect> {
    let derivation = is_derivation(draft);
    let nodes = &draft.tree.nodes;
    let node = node_with(world, &draft.tree, |i| !nodes[i].parts.is_empty())?;
    let which = world.rng.below(draft.tree.nodes[node].parts.len());
    let part = draft.tree.nodes[node].parts[which].clone();
    let another = match part.kind() {
        kind if is_type(kind) => world.closed_type(1),
        kind if is_term(kind) => {
            let ty = match derivation {
                true => world.closed_type(1),
                false => world.type_of(&part),
            };
            world.term(&ty, &Scope::default(), 1)
        }
        ALL_TYPES => world.polymorphic(1),
        _ => match world.rng.below(3) {
            0 => not(part.clone()),
            1 => world.rng.pick(&draft.hypotheses_and_goal()).clone(),
            _ => world.closed_formula(2),
        },
    };
    let another = if derivation { another.plain() } else { another };
    draft.tree.nodes[node].parts[which] = another;
    Some(Expect::Any)
}

impl Draft {
    fn hypotheses_and_goal(&self) -> Vec<Expr> {
        let goal = std::slice::from_ref(&self.negated_goal);
        [&self.hypotheses[..], goal].concat()
    }
}

/// One place inside a part: ⊤ for ¬⊥ and back, another sign, another given type, sides turned.
fn part_changed_inside(world: &mut World, draft: &mut Draft) -> Option<Expect> {
    let nodes = &draft.tree.nodes;
    let node = node_with(world, &draft.tree, |i| !nodes[i].parts.is_empty())?;
    let which = world.rng.below(draft.tree.nodes[node].parts.len());
    let part = draft.tree.nodes[node].parts[which].clone();
    let place = world.rng.below(12);
    let changed = change_at(world, &part, &mut (place as isize));
    draft.tree.nodes[node].parts[which] = changed;
    Some(Expect::Any)
}

/// Changes the place that the count runs out at.
fn change_at(world: &mut World, expr: &Expr, left: &mut isize) -> Expr {
    *left -= 1;
    if *left == -1 {
        return change_here(world, expr);
    }
    let children: Vec<Expr> = expr
        .children()
        .iter()
        .map(|child| match *left >= 0 {
            true => change_at(world, child, left),
            false => child.clone(),
        })
        .collect();
    expr.rebuilt(expr.kind(), children)
}

fn change_here(world: &mut World, expr: &Expr) -> Expr {
    let turned: Vec<Expr> = expr.children().iter().rev().cloned().collect();
    match expr.kind() {
        TOP => not(bottom()),
        NOT if expr.is_not(BOTTOM) => top(),
        BOTTOM => world.rng.pick(&[top(), not(not(bottom()))]).clone(),
        AND if world.rng.chance(50) => expr.rebuilt(IMPLIES, expr.children().to_vec()),
        IMPLIES if world.rng.chance(50) => expr.rebuilt(AND, expr.children().to_vec()),
        AND | IMPLIES | EQUAL | PAIR_TYPE => expr.rebuilt(expr.kind(), turned),
        NOT => match world.rng.chance(50) {
            true => expr.child(0),
            false => not(expr.clone()),
        },
        GIVEN => given(world.rng.below(world.given.len()) as u32),
        CONSTANT => constant(world.rng.below(world.constants.len()) as u32),
        BOUND => expr.renumbered((expr.number() + 1) % 64),
        ALL_TYPES => expr.renumbered(expr.number() % 4 + 1),
        _ => expr.clone(),
    }
}

/// One ⊤ inside a part becomes ¬⊥, or one ¬⊥ becomes ⊤.
fn exchange_truth(world: &mut World, draft: &mut Draft) -> Option<Expect> {
    let is_truth = |expr: &Expr| expr.is(TOP) || expr.is_not(BOTTOM);
    change_one(world, draft, is_truth, |_, truth| match truth.is(TOP) {
        true => not(bottom()),
        false => top(),
    })
}

/// One choice inside a part becomes another, a powerset, or what it is a choice of.
fn change_choice(world: &mut World, draft: &mut Draft) -> Option<Expect> {
    let is_choice = |expr: &Expr| expr.is(CHOICE);
    change_one(world, draft, is_choice, |world, chosen| {
        let set = chosen.child(0);
        if chosen.children().len() == 1 {
            let again = plain_choice(chosen.clone());
            let other = chosen.rebuilt(POWERSET, vec![set.clone()]);
            return world.rng.pick(&[again, other, set]).clone();
        }
        let ty = chosen.child(1);
        let sets = set_type(ty.clone());
        let other = world.term(&sets, &Scope::default(), 1);
        match world.rng.below(4) {
            0 => choice(set, sets),
            1 => world.term(&ty, &Scope::default(), 1),
            _ => choice(other, ty),
        }
    })
}

/// One place that fits, in a part of a node that has one, becomes what `change` makes of it.
fn change_one(
    world: &mut World,
    draft: &mut Draft,
    fits: fn(&Expr) -> bool,
    change: fn(&mut World, &Expr) -> Expr,
) -> Option<Expect> {
    let nodes = &draft.tree.nodes;
    let has_place = |i: usize| nodes[i].parts.iter().any(|part| places(part, fits) > 0);
    let node = node_with(world, &draft.tree, has_place)?;
    let parts = &mut draft.tree.nodes[node].parts;
    let part = parts.iter_mut().find(|part| places(part, fits) > 0)?;
    let mut left = world.rng.below(places(part, fits));
    *part = changed_at(part, fits, &mut left, &mut |place| change(world, place));
    Some(Expect::Any)
}

/// How many places in it fit.
fn places(expr: &Expr, fits: fn(&Expr) -> bool) -> usize {
    let below = expr.children().iter().map(|child| places(child, fits));
    below.sum::<usize>() + usize::from(fits(expr))
}

/// The expression with the fitting place changed before which `left` others stand.
fn changed_at(
    expr: &Expr,
    fits: fn(&Expr) -> bool,
    left: &mut usize,
    change: &mut dyn FnMut(&Expr) -> Expr,
) -> Expr {
    match (fits(expr), *left) {
        (true, 0) => return change(expr),
        (true, _) => *left -= 1,
        _ => {}
    }
    let mut children = expr.children().to_vec();
    for child in &mut children {
        let inside = places(child, fits);
        if *left < inside {
            *child = changed_at(child, fits, left, change);
            break;
        }
        *left -= inside;
    }
    expr.rebuilt(expr.kind(), children)
}

fn change_rule(world: &mut World, draft: &mut Draft) -> Option<Expect> {
    let kind = match is_derivation(draft) {
        true => world.rng.range(64, 80),
        false => world.rng.range(32, 46),
    };
    let node = any_node(world, draft);
    draft.tree.nodes[node].kind = kind as u32;
    Some(Expect::Any)
}

fn share_node(world: &mut World, draft: &mut Draft) -> Option<Expect> {
    let nodes = &draft.tree.nodes;
    let node = node_with(world, &draft.tree, |i| !nodes[i].premises.is_empty())?;
    let count = draft.tree.nodes.len();
    let shared = match draft.tree.nodes[node].premises.len() {
        2 if world.rng.chance(60) => draft.tree.nodes[node].premises[0],
        _ => world.rng.range(node + 1, count - 1),
    };
    let premises = &mut draft.tree.nodes[node].premises;
    let last = premises.len() - 1;
    if premises[last] == shared {
        premises.push(shared);
    } else {
        premises[last] = shared;
    }
    Some(Expect::Refusal(12))
}

fn unnamed_node(world: &mut World, draft: &mut Draft) -> Option<Expect> {
    let node = any_node(world, draft);
    let copy = draft.tree.nodes[node].clone();
    draft.tree.add(copy.kind, copy.parts);
    Some(Expect::Refusal(12))
}

/// Two branches change their places.
fn cross_branches(world: &mut World, draft: &mut Draft) -> Option<Expect> {
    let nodes = &draft.tree.nodes;
    let leaf = |i: usize| i > 0 && nodes[i].premises.is_empty();
    let first = node_with(world, &draft.tree, leaf)?;
    let second = node_with(world, &draft.tree, |i| leaf(i) && i != first)?;
    draft.tree.nodes.swap(first, second);
    Some(Expect::Any)
}

/// The quantified body and the constant of a rule 43 or 77.
fn witness_parts(draft: &Draft, node: usize) -> Option<(usize, Expr, Expr)> {
    let parts = &draft.tree.nodes[node].parts;
    match draft.tree.nodes[node].kind {
        43 => Some((1, parts[0].child(0).body(), parts[1].clone())),
        77 => {
            let c = parts[0].clone();
            let body = parts[1].hollow(&c, None, &mut || true);
            Some((0, body, c))
        }
        _ => None,
    }
}

fn constants_in(expr: &Expr, list: &mut Vec<u32>) {
    if expr.is(CONSTANT) {
        list.push(expr.number());
    }
    expr.children().iter().for_each(|c| constants_in(c, list));
}

fn put_witness(draft: &mut Draft, node: usize, at: usize, body: &Expr, c: u32) {
    let c = constant(c);
    draft.tree.nodes[node].parts[at + 1] = body.put(&c);
    draft.tree.nodes[node].parts[at] = c;
}

/// The constant of 43 or 77 is one of the hypotheses or of the formula itself.
fn not_fresh(world: &mut World, draft: &mut Draft) -> Option<Expect> {
    let nodes = &draft.tree.nodes;
    let node = node_with(world, &draft.tree, |i| matches!(nodes[i].kind, 43 | 77))?;
    let (at, body, c) = witness_parts(draft, node)?;
    let proof = draft.tree.nodes[node].kind == 43;
    let mut list = Vec::new();
    constants_in(&body, &mut list);
    let in_goal = !list.is_empty() && world.rng.chance(50);
    if !in_goal {
        list.clear();
        let members = draft.hypotheses_and_goal();
        members.iter().for_each(|f| constants_in(f, &mut list));
    }
    let ty = &world.constants[c.number() as usize].ty;
    list.retain(|&other| !proof || world.constants[other as usize].ty == *ty);
    if list.is_empty() {
        return None;
    }
    let other = *world.rng.pick(&list);
    put_witness(draft, node, at, &body, other);
    // A derivation may have dropped the hypothesis on its way.
    Some(match proof || in_goal {
        true => Expect::Refusal(16),
        false => Expect::Any,
    })
}

/// The constant of 43 or 77 is that of another one on the way from the root.
fn not_fresh_above(world: &mut World, draft: &mut Draft) -> Option<Expect> {
    let nodes = &draft.tree.nodes;
    let node = node_with(world, &draft.tree, |i| matches!(nodes[i].kind, 43 | 77))?;
    let mut above = vec![usize::MAX; nodes.len()];
    for (i, node) in nodes.iter().enumerate() {
        node.premises.iter().for_each(|&p| above[p] = i);
    }
    let (at, body, c) = witness_parts(draft, node)?;
    let proof = nodes[node].kind == 43;
    let ty = world.constants[c.number() as usize].ty.clone();
    let mut list = Vec::new();
    let mut up = above[node];
    while up != usize::MAX {
        if let Some((place, _, other)) = witness_parts(draft, up) {
            let used = nodes[up].parts[place + 1].has_constant(other.number());
            if used && (!proof || world.constants[other.number() as usize].ty == ty) {
                list.push(other.number());
            }
        }
        up = above[up];
    }
    if list.is_empty() {
        return None;
    }
    let other = *world.rng.pick(&list);
    put_witness(draft, node, at, &body, other);
    Some(match proof {
        true => Expect::Refusal(16),
        false => Expect::Any,
    })
}

fn naive_instance(world: &mut World, draft: &mut Draft) -> Option<Expect> {
    let nodes = &draft.tree.nodes;
    let fitting = |i: usize| matches!(nodes[i].kind, 43 | 44 | 46 | 77);
    let node = node_with(world, &draft.tree, fitting)?;
    let parts = draft.tree.nodes[node].parts.clone();
    let (at, body, term) = match draft.tree.nodes[node].kind {
        43 => (2, parts[0].child(0).body(), parts[1].clone()),
        44 => (2, parts[0].body(), parts[1].clone()),
        46 => (4, parts[0].clone(), parts[2].clone()),
        _ => {
            let (_, body, c) = witness_parts(draft, node)?;
            (1, body, c)
        }
    };
    draft.tree.nodes[node].parts[at] = body.put_naively(&term);
    Some(Expect::Any)
}

/// A part with an unbound index or a type variable.
fn open_part(world: &mut World, draft: &mut Draft) -> Option<Expect> {
    let derivation = is_derivation(draft);
    let nodes = &draft.tree.nodes;
    let node = node_with(world, &draft.tree, |i| !nodes[i].parts.is_empty())?;
    let which = world.rng.below(draft.tree.nodes[node].parts.len());
    let part = draft.tree.nodes[node].parts[which].clone();
    let index = *world.rng.pick(&[0, 0, 1, 63]);
    let variable = type_variable(world.rng.below(4) as u32);
    let ty = world.closed_type(1);
    let changed = match part.kind() {
        kind if is_type(kind) => match world.rng.chance(50) {
            true => variable,
            false => set_type(variable),
        },
        kind if is_term(kind) => {
            let ty = match derivation {
                true => ty,
                false => world.type_of(&part),
            };
            bound(index, ty)
        }
        _ => match world.rng.chance(50) {
            true => equal(bound(index, ty.clone()), bound(index, ty)),
            false => all(
                variable.clone(),
                equal(bound(0, variable.clone()), bound(0, variable)),
            ),
        },
    };
    draft.tree.nodes[node].parts[which] = if derivation { changed.plain() } else { changed };
    Some(Expect::Any)
}

fn turn_types(world: &mut World, draft: &mut Draft) -> Option<Expect> {
    let nodes = &draft.tree.nodes;
    let node = node_with(world, &draft.tree, |i| nodes[i].kind == 45)?;
    let parts = &mut draft.tree.nodes[node].parts;
    if parts[2..].iter().all(|ty| *ty == parts[2]) {
        let last = parts.len() - 1;
        parts[last] = set_type(parts[last].clone());
    } else {
        parts[2..].rotate_left(1);
    }
    Some(Expect::Any)
}

/// A node becomes a closing one, its branches are left out.
fn close_at_once(world: &mut World, draft: &mut Draft) -> Option<Expect> {
    let node = any_node(world, draft);
    let kind = match is_derivation(draft) {
        true => *world.rng.pick(&[64, 66, 68, 80]),
        false => *world.rng.pick(&[32, 33, 34, 35, 36]),
    };
    let place = &mut draft.tree.nodes[node];
    place.kind = kind;
    place.premises.clear();
    match kind {
        34..=36 => place.parts.truncate(1),
        _ => place.parts.clear(),
    }
    prune(&mut draft.tree);
    Some(Expect::Any)
}

fn drop_hypothesis(world: &mut World, draft: &mut Draft) -> Option<Expect> {
    if draft.hypotheses.is_empty() {
        return None;
    }
    let which = world.rng.below(draft.hypotheses.len());
    draft.hypotheses.remove(which);
    Some(Expect::Any)
}

fn another_goal(world: &mut World, draft: &mut Draft) -> Option<Expect> {
    draft.negated_goal = match world.rng.below(3) {
        0 => not(draft.negated_goal.clone()),
        1 => not(top()),
        _ => not(world.closed_formula(2)),
    };
    Some(Expect::Any)
}
