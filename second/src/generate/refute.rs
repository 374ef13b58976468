//! Formulas that refute themselves, with the proof that does it: they let every branch be closed.

use super::expr::*;
use super::set5;
use super::world::{Scope, World};
use super::writer::Tree;
use crate::kinds::*;

/// A proof to be: it needs its formula in the sequent and nothing else.
#[derive(Clone)]
pub struct Script {
    pub kind: u32,
    pub parts: Vec<Expr>,
    pub premises: Vec<Script>,
}

impl Script {
    pub fn new(kind: u32, parts: Vec<Expr>, premises: Vec<Script>) -> Script {
        Script {
            kind,
            parts,
            premises,
        }
    }

    pub fn nodes(&self) -> usize {
        1 + self.premises.iter().map(Script::nodes).sum::<usize>()
    }

    /// Adds the script to a tree in place of the node given, which has no premises yet.
    pub fn plant(&self, tree: &mut Tree, at: usize) {
        tree.nodes[at].kind = self.kind;
        tree.nodes[at].parts = self.parts.clone();
        for premise in &self.premises {
            let node = tree.add(0, vec![]);
            tree.nodes[at].premises.push(node);
            premise.plant(tree, node);
        }
    }

    fn put_types(&self, types: &[Expr]) -> Script {
        Script {
            kind: self.kind,
            parts: self.parts.iter().map(|p| p.put_types(types)).collect(),
            premises: self.premises.iter().map(|s| s.put_types(types)).collect(),
        }
    }
}

/// A script with parts that are lent.
pub fn node(kind: u32, parts: &[&Expr], premises: Vec<Script>) -> Script {
    Script::new(kind, parts.iter().map(|&p| p.clone()).collect(), premises)
}

/// A formula and the proof that refutes it. Types may have variables below `variables`.
pub fn refutable(world: &mut World, depth: usize, variables: u32) -> (Expr, Script) {
    let mut scope = Scope::polymorphic(variables);
    let which = match depth {
        0 => world.rng.below(6),
        _ => world.rng.below(15),
    };
    match which {
        0 => (bottom(), Script::new(32, vec![], vec![])),
        1 | 2 => negated(world, 0, variables),
        3 => {
            let p = world.formula(&mut scope, depth.min(2));
            let (l, r) = match world.rng.chance(50) {
                true => (p.clone(), not(p.clone())),
                false => (not(p.clone()), p.clone()),
            };
            let f = and(l, r);
            let close = Script::new(34, vec![p], vec![]);
            (f.clone(), Script::new(39, vec![f], vec![close]))
        }
        4 | 5 => symmetric(world, variables),
        6 | 7 => negated(world, depth, variables),
        8 | 9 => {
            let (g, script) = refutable(world, depth - 1, variables);
            let other = world.formula(&mut scope, 1);
            let f = match world.rng.chance(50) {
                true => and(g, other),
                false => and(other, g),
            };
            (f.clone(), Script::new(39, vec![f], vec![script]))
        }
        10 => {
            let (not_x, first) = negated(world, depth - 1, variables);
            let (g, second) = refutable(world, depth - 1, variables);
            let f = implies(not_x.child(0), g);
            (f.clone(), Script::new(41, vec![f], vec![first, second]))
        }
        11 => {
            let (g, script) = refutable(world, depth - 1, variables);
            let p = world.formula(&mut scope, 1);
            let cut = Script::new(37, vec![p], vec![script.clone(), script]);
            (g, cut)
        }
        12 | 13 => universal(world, depth, variables),
        _ => substituted(world, depth, variables),
    }
}

/// The same for a formula that is a ¬.
fn negated(world: &mut World, depth: usize, variables: u32) -> (Expr, Script) {
    let mut scope = Scope::polymorphic(variables);
    let which = match depth {
        0 => world.rng.below(3),
        _ => world.rng.below(9),
    };
    match which {
        0 => (not(top()), Script::new(33, vec![], vec![])),
        1 => {
            let ty = world.ty(variables, 1);
            let t = world.term(&ty, &scope, 2);
            let f = not(equal(t.clone(), t));
            (f.clone(), Script::new(35, vec![f], vec![]))
        }
        2 => {
            let p = world.formula(&mut scope, depth.min(2));
            let f = not(implies(p.clone(), p.clone()));
            let close = Script::new(34, vec![p], vec![]);
            (f.clone(), Script::new(40, vec![f], vec![close]))
        }
        3 => {
            let (g, script) = refutable(world, depth - 1, variables);
            let f = not(not(g));
            (f.clone(), Script::new(38, vec![f], vec![script]))
        }
        4 => {
            let (g, script) = refutable(world, depth - 1, variables);
            let f = not(implies(g, world.formula(&mut scope, 1)));
            (f.clone(), Script::new(40, vec![f], vec![script]))
        }
        5 => {
            let (not_y, script) = negated(world, depth - 1, variables);
            let f = not(implies(world.formula(&mut scope, 1), not_y.child(0)));
            (f.clone(), Script::new(40, vec![f], vec![script]))
        }
        6 => {
            let (not_x, first) = negated(world, depth - 1, variables);
            let (not_y, second) = negated(world, depth - 1, variables);
            let f = not(and(not_x.child(0), not_y.child(0)));
            (f.clone(), Script::new(42, vec![f], vec![first, second]))
        }
        _ => existential(world, depth, variables),
    }
}

/// ¬∀x·(P ⇒ P), ¬∀x·x=x or ¬∀x·choice(x)=choice(x), with a constant of its own.
fn existential(world: &mut World, depth: usize, variables: u32) -> (Expr, Script) {
    let ty = world.quantified_type(&Scope::default());
    let c = constant(world.new_reserved(ty.clone()));
    let mut scope = Scope::polymorphic(variables);
    scope.bound.push(ty.clone());
    if world.rng.chance(30) {
        let x = bound(0, ty.clone());
        let t = match ty.is(SET_TYPE) && world.choices > 0 {
            true => choice(x, ty.child(0)),
            false => x,
        };
        let body = equal(t.clone(), t);
        let f = not(all(ty, body.clone()));
        let close = Script::new(35, vec![not(body.put(&c))], vec![]);
        let script = Script::new(43, vec![f.clone(), c.clone(), body.put(&c)], vec![close]);
        return (f, script);
    }
    let p = world.formula(&mut scope, depth.min(2));
    let body = implies(p.clone(), p.clone());
    let f = not(all(ty, body.clone()));
    let close = Script::new(34, vec![p.put(&c)], vec![]);
    let split = Script::new(40, vec![not(body.put(&c))], vec![close]);
    let script = Script::new(43, vec![f.clone(), c.clone(), body.put(&c)], vec![split]);
    (f, script)
}

/// t=u ∧ ¬(u=t).
fn symmetric(world: &mut World, variables: u32) -> (Expr, Script) {
    let ty = world.ty(variables, 1);
    let scope = Scope::polymorphic(variables);
    let t = world.term(&ty, &scope, 1);
    let u = world.term(&ty, &scope, 1);
    let equation = equal(t.clone(), u.clone());
    let f = and(equation.clone(), not(equal(u, t)));
    let close = Script::new(36, vec![equation], vec![]);
    (f.clone(), Script::new(39, vec![f], vec![close]))
}

/// ∀B where some B(t) refutes itself.
fn universal(world: &mut World, depth: usize, variables: u32) -> (Expr, Script) {
    let (g, script) = refutable(world, depth - 1, variables);
    let (term, ty) = some_term(world, &g, variables);
    let mut rng = world.rng.clone();
    let body = g.hollow(&term, Some(&ty), &mut || rng.chance(70));
    world.rng = rng;
    let f = all(ty, body);
    (f.clone(), Script::new(44, vec![f, term, g], vec![script]))
}

/// t=u ∧ B(t) where B(u) refutes itself.
fn substituted(world: &mut World, depth: usize, variables: u32) -> (Expr, Script) {
    let (g, script) = refutable(world, depth - 1, variables);
    let (u, ty) = some_term(world, &g, variables);
    let t = world.term(&ty, &Scope::polymorphic(variables), 1);
    let mut rng = world.rng.clone();
    let body = g.hollow(&u, Some(&ty), &mut || rng.chance(70));
    world.rng = rng;
    let with_t = body.put(&t);
    let equation = equal(t.clone(), u.clone());
    let f = and(equation.clone(), with_t.clone());
    let close = Script::new(34, vec![equation], vec![]);
    let parts = vec![body, t, u, with_t, g];
    let replaced = Script::new(46, parts, vec![close, script]);
    (f.clone(), Script::new(39, vec![f], vec![replaced]))
}

/// A closed term of the formula, or another one.
pub fn some_term(world: &mut World, formula: &Expr, variables: u32) -> (Expr, Expr) {
    let mut terms = Vec::new();
    formula.closed_terms(&mut terms);
    let term = match terms.is_empty() || world.rng.chance(15) {
        true => {
            let ty = world.ty(variables, 1);
            world.term(&ty, &Scope::polymorphic(variables), 1)
        }
        false => world.rng.pick(&terms).clone(),
    };
    let ty = world.type_of(&term);
    (term, ty)
}

/// A kind 22 formula with an instance that refutes itself.
pub fn polymorphic_refutable(world: &mut World, depth: usize) -> (Expr, Script) {
    let count = world.rng.range(1, 4) as u32;
    let (body, script) = refutable(world, depth, count);
    let types: Vec<Expr> = (0..count).map(|_| world.closed_type(1)).collect();
    let instance = body.put_types(&types);
    let h = all_types(count, body);
    let mut parts = vec![h.clone(), instance];
    parts.extend(types.iter().cloned());
    let script = script.put_types(&types);
    (h, Script::new(45, parts, vec![script]))
}

/// Formulas that together refute themselves.
pub fn core(world: &mut World, depth: usize) -> (Vec<Expr>, Script) {
    if world.choices > 0 && world.rng.chance(30) {
        return set5::core(world);
    }
    match world.rng.below(10) {
        0 => {
            let p = world.closed_formula(depth.min(2));
            (
                vec![p.clone(), not(p.clone())],
                Script::new(34, vec![p], vec![]),
            )
        }
        1 => {
            let ty = world.closed_type(1);
            let t = world.term(&ty, &Scope::default(), 1);
            let u = world.term(&ty, &Scope::default(), 1);
            let equation = equal(t.clone(), u.clone());
            (
                vec![equation.clone(), not(equal(u, t))],
                Script::new(36, vec![equation], vec![]),
            )
        }
        2..=4 => {
            let (h, script) = polymorphic_refutable(world, depth);
            (vec![h], script)
        }
        _ => {
            let (f, script) = refutable(world, depth, 0);
            (vec![f], script)
        }
    }
}

/// Whether the formula may serve as a member at all.
pub fn is_light(expr: &Expr, most: u64) -> bool {
    expr.weight() <= most && (expr.is(ALL_TYPES) || expr.variables() == 0)
}
