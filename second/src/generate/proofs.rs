//! Accepted proofs, made from the root on: random steps on the members at hand, every branch closed in the
//! end by what it happens to hold or by the formulas planted for it.

use super::expr::*;
use super::refute::{core, is_light, some_term, Script};
use super::world::{Scope, World};
use super::writer::Tree;
use crate::arena::Mixing;
use crate::kinds::*;
use std::collections::HashMap;

/// How big and of which form.
#[derive(Clone, Copy, Debug)]
pub struct Shape {
    pub hypotheses: usize,
    /// Of formulas.
    pub depth: usize,
    /// Nodes besides those that close branches.
    pub budget: usize,
    /// All the budget to one premise, so that the tree is deep.
    pub deep: bool,
    /// The most that a formula of a step may weigh.
    pub weight: u64,
}

impl Shape {
    pub fn smaller(self) -> Shape {
        Shape {
            hypotheses: self.hypotheses * 2 / 3,
            depth: self.depth.saturating_sub(1).max(1),
            budget: self.budget * 2 / 3,
            ..self
        }
    }
}

/// An obligation and a proof or derivation of it, not yet written.
#[derive(Clone)]
pub struct Draft {
    pub hypotheses: Vec<Expr>,
    pub negated_goal: Expr,
    pub tree: Tree,
}

const MOST_MEMBERS: usize = 1_000;

struct Step {
    kind: u32,
    parts: Vec<Expr>,
    added: Vec<Vec<Expr>>,
}

enum Task {
    Enter {
        node: usize,
        added: Vec<Expr>,
        budget: usize,
    },
    Leave(usize),
}

struct Maker<'a> {
    world: &'a mut World,
    tree: Tree,
    members: Vec<Expr>,
    times: HashMap<Expr, usize, Mixing>,
    script: Script,
    deep: bool,
    weight: u64,
}

pub fn draft(world: &mut World, shape: Shape) -> Draft {
    let core_depth = world.rng.below(4);
    let (formulas, script) = core(world, core_depth);
    let mut hypotheses = formulas;
    for _ in 0..shape.hypotheses {
        let h = match world.rng.chance(20) {
            true => world.polymorphic(shape.depth),
            false => world.closed_formula(shape.depth),
        };
        let place = world.rng.below(hypotheses.len() + 1);
        hypotheses.insert(place, h);
    }
    if world.rng.chance(10) {
        let again = world.rng.pick(&hypotheses).clone();
        hypotheses.push(again);
    }
    let negated_goal = take_goal(world, &mut hypotheses, shape.depth);
    let mut maker = Maker {
        world,
        tree: Tree::default(),
        members: Vec::new(),
        times: HashMap::default(),
        script,
        deep: shape.deep,
        weight: shape.weight,
    };
    let start = [&hypotheses[..], std::slice::from_ref(&negated_goal)].concat();
    maker.run(start, shape.budget);
    Draft {
        hypotheses,
        negated_goal,
        tree: maker.tree,
    }
}

/// One of the hypotheses that is a ¬, or a new one.
fn take_goal(world: &mut World, hypotheses: &mut Vec<Expr>, depth: usize) -> Expr {
    let fitting: Vec<usize> = (0..hypotheses.len())
        .filter(|&i| hypotheses[i].is(NOT))
        .collect();
    if fitting.is_empty() || world.rng.chance(15) {
        return not(world.closed_formula(depth));
    }
    let which = *world.rng.pick(&fitting);
    hypotheses.remove(which)
}

impl Maker<'_> {
    fn run(&mut self, start: Vec<Expr>, budget: usize) {
        let root = self.tree.add(0, vec![]);
        let mut tasks = vec![Task::Enter {
            node: root,
            added: start,
            budget,
        }];
        while let Some(task) = tasks.pop() {
            match task {
                Task::Leave(length) => self.shrink_to(length),
                Task::Enter {
                    node,
                    added,
                    budget,
                } => {
                    tasks.push(Task::Leave(self.members.len()));
                    added.into_iter().for_each(|f| self.add(f));
                    self.enter(node, budget, &mut tasks);
                }
            }
        }
    }

    fn add(&mut self, formula: Expr) {
        *self.times.entry(formula.clone()).or_insert(0) += 1;
        self.members.push(formula);
    }

    fn shrink_to(&mut self, length: usize) {
        for formula in self.members.drain(length..) {
            if let Some(times) = self.times.get_mut(&formula) {
                *times -= 1;
            }
        }
    }

    fn has(&self, formula: &Expr) -> bool {
        self.times.get(formula).is_some_and(|&n| n > 0)
    }

    fn enter(&mut self, node: usize, budget: usize, tasks: &mut Vec<Task>) {
        let step = match budget == 0 || self.members.len() > MOST_MEMBERS {
            true => None,
            false => self.step(),
        };
        let Some(step) = step else {
            return self.close(node);
        };
        self.tree.nodes[node].kind = step.kind;
        self.tree.nodes[node].parts = step.parts;
        let budgets = self.share(budget - 1, step.added.len());
        let mut entered = Vec::new();
        for (added, budget) in step.added.into_iter().zip(budgets) {
            let premise = self.tree.add(0, vec![]);
            self.tree.nodes[node].premises.push(premise);
            entered.push(Task::Enter {
                node: premise,
                added,
                budget,
            });
        }
        tasks.extend(entered.into_iter().rev());
    }

    fn share(&mut self, budget: usize, premises: usize) -> Vec<usize> {
        match premises {
            2 if self.deep => match self.world.rng.chance(50) {
                true => vec![budget, 0],
                false => vec![0, budget],
            },
            2 => {
                let first = self.world.rng.below(budget + 1);
                vec![first, budget - first]
            }
            _ => vec![budget; premises],
        }
    }

    /// Closes a branch by what it holds, or by the script.
    fn close(&mut self, node: usize) {
        if self.world.rng.chance(85) {
            if let Some((kind, parts)) = self.closing() {
                self.tree.nodes[node].kind = kind;
                self.tree.nodes[node].parts = parts;
                return;
            }
        }
        let script = self.script.clone();
        script.plant(&mut self.tree, node);
    }

    /// A closing rule that applies, looked for from a random member on.
    fn closing(&mut self) -> Option<(u32, Vec<Expr>)> {
        let from = self.world.rng.below(self.members.len());
        let newest_first = self.world.rng.chance(50);
        let count = self.members.len();
        for i in 0..count {
            let at = match newest_first {
                true => count - 1 - i,
                false => (from + i) % count,
            };
            let f = &self.members[at];
            match f.kind() {
                BOTTOM => return Some((32, vec![])),
                NOT if f.is_not(TOP) => return Some((33, vec![])),
                NOT if self.has(&f.child(0)) => return Some((34, vec![f.child(0)])),
                NOT if f.is_not(EQUAL) && f.child(0).child(0) == f.child(0).child(1) => {
                    return Some((35, vec![f.clone()]));
                }
                EQUAL if self.has(&not(equal(f.child(1), f.child(0)))) => {
                    return Some((36, vec![f.clone()]));
                }
                _ => {}
            }
        }
        None
    }

    fn step(&mut self) -> Option<Step> {
        if self.world.rng.chance(12) {
            return self.cut();
        }
        for _ in 0..6 {
            let recent = self.world.rng.chance(40);
            let at = match recent {
                true => self.members.len() - 1 - self.world.rng.below(self.members.len().min(4)),
                false => self.world.rng.below(self.members.len()),
            };
            let f = self.members[at].clone();
            let step = self.step_on(&f);
            let most = self.weight;
            let light = |s: &Step| {
                s.parts.iter().all(|p| p.weight() <= most)
                    && s.added.iter().flatten().all(|p| is_light(p, most))
            };
            if let Some(step) = step.filter(light) {
                return Some(step);
            }
        }
        self.cut()
    }

    fn cut(&mut self) -> Option<Step> {
        let p = match self.world.rng.below(4) {
            0 => {
                let f = self.world.rng.pick(&self.members).clone();
                let inner = f.children().iter().find(|c| is_formula(c.kind())).cloned();
                let closed = |p: &Expr| p.free() == 0 && p.variables() == 0;
                match inner.filter(closed) {
                    Some(p) => p,
                    None => self.world.closed_formula(1),
                }
            }
            _ => {
                let depth = self.world.rng.below(3);
                self.world.closed_formula(depth)
            }
        };
        let added = vec![vec![p.clone()], vec![not(p.clone())]];
        Some(Step {
            kind: 37,
            parts: vec![p],
            added,
        })
    }

    fn step_on(&mut self, f: &Expr) -> Option<Step> {
        let one = |kind, added| Step {
            kind,
            parts: vec![f.clone()],
            added,
        };
        if !f.is(ALL_TYPES) && self.world.rng.chance(15) {
            return self.substitute(f);
        }
        match f.kind() {
            AND => Some(one(39, vec![vec![f.child(0), f.child(1)]])),
            IMPLIES => Some(one(41, vec![vec![not(f.child(0))], vec![f.child(1)]])),
            ALL => self.instantiate(f),
            ALL_TYPES => self.instantiate_types(f),
            NOT => {
                let g = f.child(0);
                match g.kind() {
                    NOT => Some(one(38, vec![vec![g.child(0)]])),
                    IMPLIES => Some(one(40, vec![vec![g.child(0), not(g.child(1))]])),
                    AND => {
                        let added = vec![vec![not(g.child(0))], vec![not(g.child(1))]];
                        Some(one(42, added))
                    }
                    ALL => self.witness(f),
                    _ => self.substitute(f),
                }
            }
            _ => self.substitute(f),
        }
    }

    fn instantiate(&mut self, f: &Expr) -> Option<Step> {
        let ty = f.child(0);
        let depth = self.world.rng.below(4);
        let term = self.world.term(&ty, &Scope::default(), depth);
        let instance = f.body().put(&term);
        Some(Step {
            kind: 44,
            parts: vec![f.clone(), term, instance.clone()],
            added: vec![vec![instance]],
        })
    }

    fn instantiate_types(&mut self, h: &Expr) -> Option<Step> {
        let types: Vec<Expr> = (0..h.number()).map(|_| self.world.closed_type(1)).collect();
        let instance = h.child(0).put_types(&types);
        let mut parts = vec![h.clone(), instance.clone()];
        parts.extend(types);
        Some(Step {
            kind: 45,
            parts,
            added: vec![vec![instance]],
        })
    }

    fn witness(&mut self, f: &Expr) -> Option<Step> {
        let quantified = f.child(0);
        let ty = quantified.child(0);
        let c = constant(self.fresh(&ty));
        let instance = quantified.body().put(&c);
        Some(Step {
            kind: 43,
            parts: vec![f.clone(), c, instance.clone()],
            added: vec![vec![not(instance)]],
        })
    }

    /// A constant in no member: an old one if one of a few is so, else a new one.
    fn fresh(&mut self, ty: &Expr) -> u32 {
        let fitting: Vec<u32> = (0..self.world.constants.len() as u32)
            .filter(|&c| {
                let constant = &self.world.constants[c as usize];
                !constant.reserved && constant.ty == *ty
            })
            .collect();
        for _ in 0..fitting.len().min(3) {
            let c = *self.world.rng.pick(&fitting);
            if !self.members.iter().any(|f| f.has_constant(c)) {
                return c;
            }
        }
        self.world.new_constant(ty.clone())
    }

    /// Rule 46 on a member, by turns with several places, one or none.
    fn substitute(&mut self, f: &Expr) -> Option<Step> {
        let (t, ty) = some_term(self.world, f, 0);
        if t.has_reserved(self.world) {
            return None;
        }
        let depth = self.world.rng.below(3);
        let u = match self.world.rng.chance(15) {
            true => t.clone(),
            false => self.world.term(&ty, &Scope::default(), depth),
        };
        let often = *self.world.rng.pick(&[100, 60, 30]);
        let mut rng = self.world.rng.clone();
        let body = f.hollow(&t, Some(&ty), &mut || rng.chance(often));
        self.world.rng = rng;
        let with_u = body.put(&u);
        let parts = vec![body, t.clone(), u.clone(), f.clone(), with_u.clone()];
        Some(Step {
            kind: 46,
            parts,
            added: vec![vec![not(equal(t, u))], vec![with_u]],
        })
    }
}

impl Expr {
    /// A reserved constant must stay out of the random steps.
    pub fn has_reserved(&self, world: &World) -> bool {
        (self.is(CONSTANT) && world.constants[self.number() as usize].reserved)
            || self.children().iter().any(|c| c.has_reserved(world))
    }
}
