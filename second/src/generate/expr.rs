//! Types, terms and formulas as the generator makes them.
//!
//! The kind is the record's kind. Typed expressions have their types among the children (own type last for
//! pairs, products, powersets and choices, first for quantifiers and applications); expressions without types
//! have none of them.

use crate::kinds::*;
use std::hash::{Hash, Hasher};
use std::rc::Rc;

#[derive(Clone, Debug)]
pub struct Expr(Rc<Inner>);

#[derive(Debug)]
struct Inner {
    kind: u32,
    /// Index, type variable, symbol or count.
    number: u32,
    /// How many of an application's children are types.
    types: usize,
    children: Vec<Expr>,
    hash: u64,
    weight: u64,
    free: u64,
    variables: u8,
}

impl PartialEq for Expr {
    fn eq(&self, other: &Expr) -> bool {
        Rc::ptr_eq(&self.0, &other.0)
            || (self.0.hash == other.0.hash
                && self.0.kind == other.0.kind
                && self.0.number == other.0.number
                && self.0.types == other.0.types
                && self.0.children == other.0.children)
    }
}

impl Eq for Expr {}

impl Hash for Expr {
    fn hash<H: Hasher>(&self, state: &mut H) {
        state.write_u64(self.0.hash);
    }
}

impl Expr {
    fn make(kind: u32, number: u32, types: usize, children: Vec<Expr>) -> Expr {
        let mut hash = (kind as u64) << 40 ^ (types as u64) << 32 ^ number as u64;
        let mut weight = 1u64;
        let (mut free, mut variables) = (0, 0);
        for child in &children {
            hash = (hash.rotate_left(9) ^ child.0.hash).wrapping_mul(0xD6E8_FEB8_6659_FD93);
            weight = weight.saturating_add(child.0.weight);
            free |= child.0.free;
            variables |= child.0.variables;
        }
        match kind {
            BOUND => free |= 1u64.checked_shl(number).unwrap_or(0),
            TYPE_VARIABLE => variables |= 1u8.checked_shl(number).unwrap_or(0),
            ALL => free >>= 1,
            _ => {}
        }
        hash = (hash ^ (hash >> 31)).wrapping_mul(0xA076_1D64_78BD_642F);
        Expr(Rc::new(Inner {
            kind,
            number,
            types,
            children,
            hash,
            weight,
            free,
            variables,
        }))
    }

    pub fn kind(&self) -> u32 {
        self.0.kind
    }

    pub fn number(&self) -> u32 {
        self.0.number
    }

    pub fn types(&self) -> usize {
        self.0.types
    }

    pub fn children(&self) -> &[Expr] {
        &self.0.children
    }

    pub fn child(&self, which: usize) -> Expr {
        self.0.children[which].clone()
    }

    pub fn weight(&self) -> u64 {
        self.0.weight
    }

    pub fn free(&self) -> u64 {
        self.0.free
    }

    pub fn variables(&self) -> u8 {
        self.0.variables
    }

    pub fn is(&self, kind: u32) -> bool {
        self.0.kind == kind
    }

    /// Whether it is ¬ of something of this kind.
    pub fn is_not(&self, kind: u32) -> bool {
        self.is(NOT) && self.0.children[0].is(kind)
    }

    /// The body of a quantifier, with or without its type.
    pub fn body(&self) -> Expr {
        self.child(self.0.children.len() - 1)
    }

    /// The same with another kind and other children.
    pub fn rebuilt(&self, kind: u32, children: Vec<Expr>) -> Expr {
        Expr::make(kind, self.0.number, self.0.types, children)
    }

    /// The same with another index, symbol or count.
    pub fn renumbered(&self, number: u32) -> Expr {
        Expr::make(self.0.kind, number, self.0.types, self.0.children.clone())
    }

    fn with_children(&self, children: Vec<Expr>) -> Expr {
        Expr::make(self.0.kind, self.0.number, self.0.types, children)
    }

    /// The same with each child changed; `below` tells whether the child stands under one binder more.
    fn map(&self, mut change: impl FnMut(&Expr, u32) -> Expr) -> Expr {
        let last = self.0.children.len().wrapping_sub(1);
        let children = self
            .0
            .children
            .iter()
            .enumerate()
            .map(|(i, child)| change(child, u32::from(self.is(ALL) && i == last)))
            .collect();
        self.with_children(children)
    }

    /// Index 0, counted through the binders crossed, replaced by a closed term.
    pub fn put(&self, term: &Expr) -> Expr {
        self.put_at(term, 0)
    }

    fn put_at(&self, term: &Expr, depth: u32) -> Expr {
        if self.0.free.checked_shr(depth).unwrap_or(0) & 1 == 0 {
            return self.clone();
        }
        match self.0.kind {
            BOUND => term.clone(),
            _ => self.map(|child, below| child.put_at(term, depth + below)),
        }
    }

    /// The trap: index 0 replaced without counting the binders crossed.
    pub fn put_naively(&self, term: &Expr) -> Expr {
        match self.0.kind {
            BOUND if self.0.number == 0 => term.clone(),
            _ if self.0.children.is_empty() => self.clone(),
            _ => self.map(|child, _| child.put_naively(term)),
        }
    }

    /// The other direction: occurrences of a closed term that `choose` picks become index 0 of this type.
    pub fn hollow(&self, term: &Expr, ty: Option<&Expr>, choose: &mut dyn FnMut() -> bool) -> Expr {
        self.hollow_at(term, ty, choose, 0)
    }

    fn hollow_at(
        &self,
        term: &Expr,
        ty: Option<&Expr>,
        choose: &mut dyn FnMut() -> bool,
        depth: u32,
    ) -> Expr {
        if self == term && depth <= 63 && choose() {
            return match ty {
                Some(ty) => bound(depth, ty.clone()),
                None => plain_bound(depth),
            };
        }
        if self.0.children.is_empty() || self.0.weight < term.0.weight {
            return self.clone();
        }
        self.map(|child, below| child.hollow_at(term, ty, choose, depth + below))
    }

    /// Types put in for the type variables, all at once.
    pub fn put_types(&self, types: &[Expr]) -> Expr {
        if self.0.variables == 0 {
            return self.clone();
        }
        match self.0.kind {
            TYPE_VARIABLE => types
                .get(self.0.number as usize)
                .cloned()
                .unwrap_or(self.clone()),
            _ => self.map(|child, _| child.put_types(types)),
        }
    }

    /// Without types: ⊤ as ¬⊥, kind 22 as its formula.
    pub fn plain(&self) -> Expr {
        let child = |i: usize| self.0.children[i].plain();
        match self.0.kind {
            TOP => not(bottom()),
            ALL_TYPES => child(0),
            BOUND => plain_bound(self.0.number),
            PAIR | PRODUCT => Expr::make(self.0.kind, 0, 0, vec![child(0), child(1)]),
            POWERSET | CHOICE => Expr::make(self.0.kind, 0, 0, vec![child(0)]),
            ALL => plain_all(self.body().plain()),
            APPLICATION => {
                let arguments = self.0.children[self.0.types..].iter();
                let arguments = arguments.map(Expr::plain).collect();
                Expr::make(APPLICATION, self.0.number, 0, arguments)
            }
            _ if self.0.children.is_empty() => self.clone(),
            _ => self.map(|child, _| child.plain()),
        }
    }

    /// Whether a constant or function is in it.
    pub fn has_symbol(&self, kind: u32, number: u32) -> bool {
        (self.0.kind == kind && self.0.number == number)
            || self.0.children.iter().any(|c| c.has_symbol(kind, number))
    }

    pub fn has_constant(&self, constant: u32) -> bool {
        self.has_symbol(CONSTANT, constant)
    }

    /// All closed terms in it, each as often as it stands there.
    pub fn closed_terms(&self, list: &mut Vec<Expr>) {
        if list.len() > 40 {
            return;
        }
        if is_term(self.0.kind) && self.0.free == 0 {
            list.push(self.clone());
        }
        for child in &self.0.children {
            if !is_type(child.0.kind) {
                child.closed_terms(list);
            }
        }
    }
}

pub fn given(symbol: u32) -> Expr {
    Expr::make(GIVEN, symbol, 0, vec![])
}

pub fn set_type(element: Expr) -> Expr {
    Expr::make(SET_TYPE, 0, 0, vec![element])
}

pub fn pair_type(left: Expr, right: Expr) -> Expr {
    Expr::make(PAIR_TYPE, 0, 0, vec![left, right])
}

pub fn type_variable(number: u32) -> Expr {
    Expr::make(TYPE_VARIABLE, number, 0, vec![])
}

pub fn constant(symbol: u32) -> Expr {
    Expr::make(CONSTANT, symbol, 0, vec![])
}

pub fn bound(index: u32, ty: Expr) -> Expr {
    Expr::make(BOUND, index, 0, vec![ty])
}

pub fn plain_bound(index: u32) -> Expr {
    Expr::make(BOUND, index, 0, vec![])
}

pub fn pair(left: Expr, right: Expr, own: Expr) -> Expr {
    Expr::make(PAIR, 0, 0, vec![left, right, own])
}

pub fn product(left: Expr, right: Expr, own: Expr) -> Expr {
    Expr::make(PRODUCT, 0, 0, vec![left, right, own])
}

pub fn powerset(of: Expr, own: Expr) -> Expr {
    Expr::make(POWERSET, 0, 0, vec![of, own])
}

pub fn choice(of: Expr, own: Expr) -> Expr {
    Expr::make(CHOICE, 0, 0, vec![of, own])
}

pub fn plain_choice(of: Expr) -> Expr {
    Expr::make(CHOICE, 0, 0, vec![of])
}

/// `types` has the own type first.
pub fn application(function: u32, types: Vec<Expr>, arguments: Vec<Expr>) -> Expr {
    let count = types.len();
    let children = types.into_iter().chain(arguments).collect();
    Expr::make(APPLICATION, function, count, children)
}

pub fn bottom() -> Expr {
    Expr::make(BOTTOM, 0, 0, vec![])
}

pub fn top() -> Expr {
    Expr::make(TOP, 0, 0, vec![])
}

pub fn and(left: Expr, right: Expr) -> Expr {
    Expr::make(AND, 0, 0, vec![left, right])
}

pub fn implies(left: Expr, right: Expr) -> Expr {
    Expr::make(IMPLIES, 0, 0, vec![left, right])
}

pub fn not(formula: Expr) -> Expr {
    Expr::make(NOT, 0, 0, vec![formula])
}

pub fn all(ty: Expr, body: Expr) -> Expr {
    Expr::make(ALL, 0, 0, vec![ty, body])
}

pub fn plain_all(body: Expr) -> Expr {
    Expr::make(ALL, 0, 0, vec![body])
}

pub fn equal(left: Expr, right: Expr) -> Expr {
    Expr::make(EQUAL, 0, 0, vec![left, right])
}

/// t = t.
pub fn refl(term: &Expr) -> Expr {
    equal(term.clone(), term.clone())
}

pub fn member(element: Expr, set: Expr) -> Expr {
    Expr::make(IN, 0, 0, vec![element, set])
}

pub fn all_types(count: u32, formula: Expr) -> Expr {
    Expr::make(ALL_TYPES, count, 0, vec![formula])
}
