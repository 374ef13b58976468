//! Axiom SET5, ∃x·(x ∈ s) ⇒ choice(s) ∈ s: as a kind 22 hypothesis that rules 45 and 44 use in proofs, and as a
//! formula over sets of one type that R8 uses in derivations.

use super::expr::*;
use super::refute::Script;
use super::world::{Scope, World};
use crate::kinds::*;

fn node(kind: u32, parts: Vec<Expr>, premises: Vec<Script>) -> Script {
    Script::new(kind, parts, premises)
}

/// The axiom for sets of this type's elements; ∃ is written ¬∀¬.
pub fn over_sets(ty: &Expr) -> Expr {
    let sets = set_type(ty.clone());
    let in_outer = member(bound(0, ty.clone()), bound(1, sets.clone()));
    let empty = all(ty.clone(), not(in_outer));
    let s = bound(0, sets.clone());
    let chosen = member(choice(s.clone(), ty.clone()), s);
    all(sets, implies(not(empty), chosen))
}

/// Whether the formula is the axiom for sets of some type.
fn is_over_sets(formula: &Expr) -> bool {
    formula.is(ALL)
        && formula.child(0).is(SET_TYPE)
        && *formula == over_sets(&formula.child(0).child(0))
}

/// The axiom quantified over types, and the type within it: a type variable, or a type made of some.
fn axiom(world: &mut World) -> (Expr, Expr) {
    let count = *world.rng.pick(&[1, 1, 1, 2, 3, 4]);
    let variable = type_variable(world.rng.below(count as usize) as u32);
    let pattern = match world.rng.below(6) {
        0 => set_type(variable),
        1 => pair_type(variable, world.ty(count, 1)),
        _ => variable,
    };
    (all_types(count, over_sets(&pattern)), pattern)
}

/// A set, an element of it by hypothesis, and what the axiom then gives.
struct Use {
    set: Expr,
    element: Expr,
    ty: Expr,
}

impl Use {
    /// Any set and element of the type. The set is often a choice itself.
    fn random(world: &mut World, ty: &Expr) -> Use {
        let sets = set_type(ty.clone());
        let depth = world.rng.below(3);
        let set = match world.rng.chance(25) {
            true => {
                let of = world.term(&set_type(sets.clone()), &Scope::default(), depth);
                choice(of, sets)
            }
            false => world.term(&sets, &Scope::default(), depth),
        };
        let element = world.term(ty, &Scope::default(), 1);
        let ty = ty.clone();
        Use { set, element, ty }
    }

    fn term(&self) -> Expr {
        choice(self.set.clone(), self.ty.clone())
    }

    fn has(&self, element: Expr) -> Expr {
        member(element, self.set.clone())
    }

    /// The hypothesis that the set has an element.
    fn fact(&self) -> Expr {
        self.has(self.element.clone())
    }

    /// choice(s) ∈ s.
    fn chosen(&self) -> Expr {
        self.has(self.term())
    }

    /// ∀x·¬(x ∈ s).
    fn empty(&self) -> Expr {
        let x = bound(0, self.ty.clone());
        all(self.ty.clone(), not(self.has(x)))
    }

    /// The axiom with the set put in.
    fn implied(&self) -> Expr {
        over_sets(&self.ty).body().put(&self.set)
    }

    /// Rules 44, 41, 38, 44, 34 from the axiom for this type and the fact; `then` has choice(s) ∈ s.
    fn prove(&self, then: Script) -> Script {
        let fact = self.fact();
        let close = node(34, vec![fact.clone()], vec![]);
        let parts = vec![self.empty(), self.element.clone(), not(fact)];
        let none = node(44, parts, vec![close]);
        let not_empty = node(38, vec![not(not(self.empty()))], vec![none]);
        let split = node(41, vec![self.implied()], vec![not_empty, then]);
        let parts = vec![over_sets(&self.ty), self.set.clone(), self.implied()];
        node(44, parts, vec![split])
    }

    /// MP, R6, R8 from the axiom for this type and the fact: the goal is choice(s) ∈ s.
    fn derive(&self) -> Script {
        let br3 = || node(66, vec![], vec![]);
        let none = node(78, vec![self.empty(), self.element.clone()], vec![br3()]);
        let not_empty = node(76, vec![self.fact()], vec![br3(), none]);
        let instance = node(78, vec![over_sets(&self.ty), self.set.clone()], vec![br3()]);
        node(69, vec![self.implied()], vec![not_empty, instance])
    }
}

/// The axiom and formulas that refute themselves by it.
pub fn core(world: &mut World) -> (Vec<Expr>, Script) {
    let (h, pattern) = axiom(world);
    let types: Vec<Expr> = (0..h.number()).map(|_| world.closed_type(1)).collect();
    let ty = pattern.put_types(&types);
    let used = Use::random(world, &ty);
    let (mut formulas, then) = ending(world, &used);
    let parts = [&[h.clone(), over_sets(&ty)], &types[..]].concat();
    let script = node(45, parts, vec![used.prove(then)]);
    formulas.extend([h, used.fact()]);
    let turn = world.rng.below(formulas.len());
    formulas.rotate_left(turn);
    (formulas, script)
}

/// Formulas that are refuted once choice(s) ∈ s is there, and how.
fn ending(world: &mut World, used: &Use) -> (Vec<Expr>, Script) {
    let close = |f: &Expr| node(34, vec![f.clone()], vec![]);
    let (term, chosen) = (used.term(), used.chosen());
    let x = bound(0, used.ty.clone());
    match world.rng.below(4) {
        0 => {
            // All elements have P, and none has.
            let mut scope = Scope::default();
            scope.bound.push(used.ty.clone());
            let p = world.formula(&mut scope, 1);
            let both = and(p.clone(), not(p.clone()));
            let every = all(used.ty.clone(), implies(used.has(x), both.clone()));
            let with_term = both.put(&term);
            let clash = node(39, vec![with_term.clone()], vec![close(&p.put(&term))]);
            let implied = implies(chosen.clone(), with_term);
            let split = node(41, vec![implied.clone()], vec![close(&chosen), clash]);
            let parts = vec![every.clone(), term, implied];
            (vec![every], node(44, parts, vec![split]))
        }
        1 => {
            // choice(s) is another term, which is no element.
            let other = world.term(&used.ty, &Scope::default(), 1);
            let equation = equal(term.clone(), other.clone());
            let with_other = used.has(other.clone());
            let premises = vec![close(&equation), close(&with_other)];
            let denied = not(with_other.clone());
            let parts = vec![used.has(x), term, other, chosen, with_other];
            (vec![equation, denied], node(46, parts, premises))
        }
        _ => (vec![not(chosen.clone())], close(&chosen)),
    }
}

/// For a derivation from any members: hypotheses, and how choice(s) ∈ s follows from them.
pub fn derivable(world: &mut World) -> (Vec<Expr>, Expr, Script) {
    let ty = world.closed_type(1);
    let used = Use::random(world, &ty);
    // Without types the axiom for one type serves all of them.
    let h = match world.rng.chance(60) {
        true => axiom(world).0,
        false => {
            let other = world.closed_type(1);
            over_sets(&other)
        }
    };
    (vec![h, used.fact()], used.chosen(), used.derive())
}

/// The axiom for one type and an element of a set of that type, as hypotheses.
pub fn hypotheses(world: &mut World) -> [Expr; 2] {
    let ty = world.closed_type(1);
    let used = Use::random(world, &ty);
    [over_sets(&ty), used.fact()]
}

/// choice(s) ∈ s where the members have the axiom for its type and an element of s.
pub fn derive_from(world: &mut World, members: &[Expr]) -> Option<(Expr, Script)> {
    let axioms = members.iter().filter(|f| is_over_sets(f));
    let sets: Vec<Expr> = axioms.map(|f| f.child(0)).collect();
    let fits = |f: &&Expr| f.is(IN) && sets.contains(&world.type_of(&f.child(1)));
    let facts: Vec<&Expr> = members.iter().filter(fits).collect();
    if facts.is_empty() {
        return None;
    }
    let fact = *world.rng.pick(&facts);
    let (element, set) = (fact.child(0), fact.child(1));
    let ty = world.type_of(&element);
    let used = Use { set, element, ty };
    Some((used.chosen(), used.derive()))
}
