//! Replacement, asked as a question: is the candidate the pattern with something put in?
//!
//! Nothing is built. Both are walked together; where the pattern has no place left, the two must be one
//! identifier. What is put in is closed, so nothing in it is shifted.

use crate::arena::{Arena, Head, Id, Mixing};
use std::collections::HashMap;

#[derive(Clone, Copy)]
pub enum Put<'a> {
    /// A term for index 0, counted through the binders crossed.
    Term(Id),
    /// Types for the type variables, all at once.
    Types(&'a [Id]),
}

/// Nodes of this weight on are remembered, so that shared ones are walked once.
const WORTH_REMEMBERING: u64 = 64;

pub fn is_replaced(arena: &Arena, pattern: Id, put: Put, candidate: Id) -> bool {
    let mut stack = vec![(pattern, candidate, 0u32)];
    let mut done: HashMap<(Id, u32), Id, Mixing> = HashMap::default();
    while let Some((pattern, candidate, depth)) = stack.pop() {
        if !has_place(arena, pattern, put, depth) {
            if pattern != candidate {
                return false;
            }
            continue;
        }
        if let Some(put_in) = at_place(arena, pattern, put) {
            if put_in != Some(candidate) {
                return false;
            }
            continue;
        }
        if arena.facts(pattern).weight >= WORTH_REMEMBERING {
            // One pattern at one depth has one result: another candidate than before is wrong.
            match done.insert((pattern, depth), candidate) {
                Some(before) if before != candidate => return false,
                Some(_) => continue,
                None => {}
            }
        }
        if !push_children(arena, pattern, candidate, depth, &mut stack) {
            return false;
        }
    }
    true
}

fn has_place(arena: &Arena, pattern: Id, put: Put, depth: u32) -> bool {
    match put {
        Put::Term(_) => has_index(arena, pattern, depth),
        Put::Types(_) => arena.facts(pattern).type_variables != 0,
    }
}

/// Whether the index `depth` is unbound in it; none is past 63.
fn has_index(arena: &Arena, id: Id, depth: u32) -> bool {
    arena.facts(id).free.checked_shr(depth).unwrap_or(0) & 1 != 0
}

/// What is put at this place, if the pattern is a place itself.
fn at_place(arena: &Arena, pattern: Id, put: Put) -> Option<Option<Id>> {
    match (put, arena.head(pattern)) {
        (Put::Term(term), Head::Bound(_)) => Some(Some(term)),
        (Put::Types(types), Head::TypeVariable(variable)) => {
            Some(types.get(variable as usize).copied())
        }
        _ => None,
    }
}

fn push_children(
    arena: &Arena,
    pattern: Id,
    candidate: Id,
    depth: u32,
    stack: &mut Vec<(Id, Id, u32)>,
) -> bool {
    let (left, right) = (arena.node(pattern), arena.node(candidate));
    if left.head != right.head || left.children().len() != right.children().len() {
        return false;
    }
    let below = depth + u32::from(left.head == Head::All);
    let pairs = left.children().iter().zip(right.children());
    stack.extend(pairs.map(|(&l, &r)| (l, r, below)));
    true
}

/// Whether each occurrence of index 0 in it bears the type.
pub fn places_bear(arena: &Arena, pattern: Id, ty: Id) -> bool {
    let mut stack = vec![(pattern, 0u32)];
    let mut done: HashMap<(Id, u32), (), Mixing> = HashMap::default();
    while let Some((id, depth)) = stack.pop() {
        if !has_index(arena, id, depth) {
            continue;
        }
        if let Head::Bound(_) = arena.head(id) {
            if arena.ty(id) != ty {
                return false;
            }
            continue;
        }
        let heavy = arena.facts(id).weight >= WORTH_REMEMBERING;
        if heavy && done.insert((id, depth), ()).is_some() {
            continue;
        }
        let below = depth + u32::from(arena.head(id) == Head::All);
        stack.extend(arena.children(id).iter().map(|&child| (child, below)));
    }
    true
}
