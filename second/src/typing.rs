//! The typing rules, one node at a time: what a node names is typed already.

use crate::arena::{Arena, Head, Id};
use crate::replace::{is_replaced, places_bear, Put};

/// A function's types, result first, and the number of its type parameters.
#[derive(Clone, Debug)]
pub struct Signature {
    pub types: Vec<Id>,
    pub parameters: u32,
}

impl Signature {
    /// Only type variables below the parameter count are used.
    pub fn is_typed(&self, arena: &Arena) -> bool {
        self.types
            .iter()
            .all(|&ty| variables_below(arena, ty, self.parameters))
    }
}

/// Whether all type variables in it are below the count.
pub fn variables_below(arena: &Arena, id: Id, count: u32) -> bool {
    (arena.facts(id).type_variables as u32) >> count == 0
}

/// τ if the type is Set(τ).
fn element(arena: &Arena, ty: Id) -> Option<Id> {
    (arena.head(ty) == Head::SetType).then(|| arena.child(ty, 0))
}

/// τ and υ if the type is Pair(τ, υ).
fn sides(arena: &Arena, ty: Id) -> Option<(Id, Id)> {
    (arena.head(ty) == Head::PairType).then(|| (arena.child(ty, 0), arena.child(ty, 1)))
}

/// Whether the node fits its typing rule; `signature` is that of an application's function.
pub fn is_typed(arena: &Arena, id: Id, signature: Option<&Signature>) -> bool {
    let child = |which| arena.child(id, which);
    let type_of = |which| arena.ty(child(which));
    match arena.head(id) {
        Head::Constant(_) => arena.facts(arena.ty(id)).type_variables == 0,
        Head::Pair => sides(arena, child(2)) == Some((type_of(0), type_of(1))),
        Head::Product => is_product(arena, type_of(0), type_of(1), child(2)),
        Head::Powerset => {
            element(arena, type_of(0)).is_some() && element(arena, child(1)) == Some(type_of(0))
        }
        Head::Choice => element(arena, type_of(0)) == Some(child(1)),
        Head::Application { types, .. } => {
            signature.is_some_and(|s| fits_signature(arena, id, types as usize, s))
        }
        Head::All => places_bear(arena, child(1), child(0)),
        Head::Equal => type_of(0) == type_of(1),
        Head::In => element(arena, type_of(1)) == Some(type_of(0)),
        Head::Given(_) | Head::SetType | Head::PairType | Head::TypeVariable(_) => true,
        Head::Bound(_) | Head::Bottom | Head::Top | Head::AllTypes(_) => true,
        Head::And | Head::Implies | Head::Not => true,
    }
}

fn is_product(arena: &Arena, left: Id, right: Id, own: Id) -> bool {
    let of_pairs = element(arena, own).and_then(|pair| sides(arena, pair));
    match (element(arena, left), element(arena, right)) {
        (Some(l), Some(r)) => of_pairs == Some((l, r)),
        _ => false,
    }
}

fn fits_signature(arena: &Arena, id: Id, types: usize, signature: &Signature) -> bool {
    let children = arena.children(id);
    let (own, type_arguments) = (children[0], &children[1..types]);
    let arguments = &children[types..];
    let right_numbers = type_arguments.len() == signature.parameters as usize
        && arguments.len() + 1 == signature.types.len();
    let borne = std::iter::once(own).chain(arguments.iter().map(|&term| arena.ty(term)));
    right_numbers
        && signature
            .types
            .iter()
            .zip(borne)
            .all(|(&ty, borne)| is_replaced(arena, ty, Put::Types(type_arguments), borne))
}
