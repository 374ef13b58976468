//! Accepted derivations, in two ways: backwards from a random sequent that holds a contradiction, and
//! forwards by making up a goal together with its derivation.

use super::expr::*;
use super::proofs::{Draft, Shape};
use super::refute::Script;
use super::set5;
use super::world::{Scope, World};
use super::writer::Tree;
use crate::arena::Mixing;
use crate::kinds::*;
use std::collections::HashMap;

const MOST_MEMBERS: usize = 2_000;

fn node(kind: u32, parts: Vec<Expr>, premises: Vec<Script>) -> Script {
    Script::new(kind, parts, premises)
}

fn br3() -> Script {
    node(66, vec![], vec![])
}

fn br6() -> Script {
    node(68, vec![], vec![])
}

fn r10() -> Script {
    node(80, vec![], vec![])
}

pub fn draft(world: &mut World, shape: Shape) -> Draft {
    match world.rng.chance(45) && shape.budget < 1_000 {
        true => forwards(world, shape),
        false => backwards(world, shape),
    }
}

// ---------------------------------------------------------------- backwards

/// Members that contradict each other, and how: Γ ⊢ P and Γ ⊢ ¬P.
struct Core {
    /// As they stand in the obligation.
    typed: Vec<Expr>,
    members: Vec<Expr>,
    p: Expr,
    yes: Script,
    no: Script,
}

impl Core {
    fn new(typed: Vec<Expr>, p: Expr, yes: Script, no: Script) -> Core {
        Core {
            members: typed.iter().map(Expr::plain).collect(),
            typed,
            p: p.plain(),
            yes: yes.plain(),
            no: no.plain(),
        }
    }
}

fn core(world: &mut World) -> Core {
    let f = world.closed_formula(1);
    let ty = world.closed_type(1);
    let t = world.term(&ty, &Scope::default(), 1);
    let u = world.term(&ty, &Scope::default(), 1);
    let by_set5 = world.choices > 0 && world.rng.chance(25);
    // Drawn in either case, so that a seed keeps its case.
    let which = world.rng.below(9);
    if by_set5 {
        return unchosen(world);
    }
    match which {
        0 => Core::new(vec![bottom()], bottom(), br3(), br6()),
        1 => Core::new(vec![not(top())], top(), br6(), br3()),
        2 => {
            let same = refl(&t);
            Core::new(vec![not(same.clone())], same, r10(), br3())
        }
        3 => and_not_itself(f),
        4 => implies_bottom(world, f),
        5 => bottom_for_all(ty, t),
        6 => equal_one_way(ty, t, u),
        7 => denied_for_all_types(world),
        _ => Core::new(vec![f.clone(), not(f.clone())], f, br3(), br3()),
    }
}

/// SET5, an element of s, and ¬(choice(s) ∈ s).
fn unchosen(world: &mut World) -> Core {
    let (mut typed, chosen, yes) = set5::derivable(world);
    typed.push(not(chosen.clone()));
    Core::new(typed, chosen, yes, br3())
}

/// P ∧ ¬P.
fn and_not_itself(p: Expr) -> Core {
    let both = and(p.clone(), not(p.clone()));
    let yes = node(71, vec![both.clone()], vec![br3()]);
    let no = node(72, vec![both.clone()], vec![br3()]);
    Core::new(vec![both], p, yes, no)
}

/// P and P ⇒ ⊥.
fn implies_bottom(world: &mut World, p: Expr) -> Core {
    let wrong = implies(p.clone(), bottom());
    let yes = match world.rng.chance(50) {
        true => node(69, vec![wrong.clone()], vec![br3(), br3()]),
        false => node(74, vec![wrong.clone()], vec![br3()]),
    };
    Core::new(vec![p, wrong], bottom(), yes, br6())
}

/// ∀x·⊥ for x of a type that a term has.
fn bottom_for_all(ty: Expr, term: Expr) -> Core {
    let wrong = all(ty, bottom());
    let yes = node(78, vec![wrong.clone(), term], vec![br3()]);
    Core::new(vec![wrong], bottom(), yes, br6())
}

/// t=u and ¬(u=t): B is "index 0 = t".
fn equal_one_way(ty: Expr, t: Expr, u: Expr) -> Core {
    let equation = equal(t.clone(), u.clone());
    let turned = equal(u, t.clone());
    let body = equal(bound(0, ty), t.clone());
    let parts = vec![body, equation.clone(), refl(&t)];
    let yes = node(79, parts, vec![br3(), r10()]);
    Core::new(vec![equation, not(turned.clone())], turned, yes, br3())
}

/// P as kind 22, which reads as its formula, and ¬P.
fn denied_for_all_types(world: &mut World) -> Core {
    let body = world.polymorphic(1).child(0);
    let p = match body.variables() == 0 {
        true => body,
        false => bottom(),
    };
    let typed = vec![all_types(2, p.clone()), not(p.clone())];
    Core::new(typed, p, br3(), br3())
}

impl Script {
    /// The same with all types dropped.
    pub fn plain(&self) -> Script {
        Script {
            kind: self.kind,
            parts: self.parts.iter().map(Expr::plain).collect(),
            premises: self.premises.iter().map(Script::plain).collect(),
        }
    }
}

enum Members {
    Same,
    With(Expr),
    Only(Vec<Expr>),
}

struct Step {
    kind: u32,
    parts: Vec<Expr>,
    premises: Vec<(Members, Expr)>,
}

enum Task {
    Enter {
        node: usize,
        members: Members,
        goal: Expr,
        budget: usize,
    },
    Shrink(usize),
    Restore(Vec<Expr>),
}

struct Maker<'a> {
    world: &'a mut World,
    tree: Tree,
    members: Vec<Expr>,
    times: HashMap<Expr, usize, Mixing>,
    core: Core,
    deep: bool,
    weight: u64,
}

fn backwards(world: &mut World, shape: Shape) -> Draft {
    let core = core(world);
    let mut hypotheses = core.typed.clone();
    for _ in 0..shape.hypotheses {
        let h = match world.rng.chance(25) {
            true => world.polymorphic(shape.depth),
            false => world.closed_formula(shape.depth),
        };
        let place = world.rng.below(hypotheses.len() + 1);
        hypotheses.insert(place, h);
    }
    let goal = world.closed_formula(shape.depth);
    let mut maker = Maker {
        world,
        tree: Tree::default(),
        members: Vec::new(),
        times: HashMap::default(),
        core,
        deep: shape.deep,
        weight: shape.weight,
    };
    let start = hypotheses.iter().map(Expr::plain).collect();
    maker.run(start, goal.plain(), shape.budget);
    Draft {
        hypotheses,
        negated_goal: not(goal),
        tree: maker.tree,
    }
}

impl Maker<'_> {
    fn run(&mut self, start: Vec<Expr>, goal: Expr, budget: usize) {
        let root = self.tree.add(0, vec![]);
        let mut tasks = vec![Task::Enter {
            node: root,
            members: Members::Only(start),
            goal,
            budget,
        }];
        while let Some(task) = tasks.pop() {
            match task {
                Task::Shrink(length) => self.shrink_to(length),
                Task::Restore(members) => {
                    self.exchange(members);
                }
                Task::Enter {
                    node,
                    members,
                    goal,
                    budget,
                } => {
                    match members {
                        Members::Same => {}
                        Members::With(f) => {
                            tasks.push(Task::Shrink(self.members.len()));
                            self.add(f);
                        }
                        Members::Only(list) => {
                            let before = self.exchange(list);
                            tasks.push(Task::Restore(before));
                        }
                    }
                    self.enter(node, goal, budget, &mut tasks);
                }
            }
        }
    }

    fn add(&mut self, formula: Expr) {
        *self.times.entry(formula.clone()).or_insert(0) += 1;
        self.members.push(formula);
    }

    fn shrink_to(&mut self, length: usize) {
        for formula in self.members.drain(length..) {
            if let Some(times) = self.times.get_mut(&formula) {
                *times -= 1;
            }
        }
    }

    fn exchange(&mut self, list: Vec<Expr>) -> Vec<Expr> {
        let before = self.members.clone();
        self.shrink_to(0);
        list.into_iter().for_each(|f| self.add(f));
        before
    }

    fn has(&self, formula: &Expr) -> bool {
        self.times.get(formula).is_some_and(|&n| n > 0)
    }

    fn enter(&mut self, node: usize, goal: Expr, budget: usize, tasks: &mut Vec<Task>) {
        let full = self.members.len() > MOST_MEMBERS;
        let step = match budget == 0 || full || goal.weight() > self.weight {
            true => None,
            false => self.step(&goal),
        };
        let most = 4 * self.weight;
        let light = |s: &Step| s.parts.iter().all(|p| p.weight() <= most);
        let Some(step) = step.filter(light) else {
            let script = self.closing(&goal);
            return script.plant(&mut self.tree, node);
        };
        self.tree.nodes[node].kind = step.kind;
        self.tree.nodes[node].parts = step.parts;
        let budgets = self.share(budget - 1, step.premises.len());
        let mut entered = Vec::new();
        for ((members, goal), budget) in step.premises.into_iter().zip(budgets) {
            let premise = self.tree.add(0, vec![]);
            self.tree.nodes[node].premises.push(premise);
            entered.push(Task::Enter {
                node: premise,
                members,
                goal,
                budget,
            });
        }
        tasks.extend(entered.into_iter().rev());
    }

    fn share(&mut self, budget: usize, premises: usize) -> Vec<usize> {
        match premises {
            2 if self.deep => match self.world.rng.chance(50) {
                true => vec![budget, 0],
                false => vec![0, budget],
            },
            2 => {
                let first = self.world.rng.below(budget + 1);
                vec![first, budget - first]
            }
            _ => vec![budget; premises],
        }
    }

    /// A derivation of the goal without further ado.
    fn closing(&mut self, goal: &Expr) -> Script {
        if self.world.rng.chance(90) {
            if self.has(goal) {
                return self.by_member(goal);
            }
            if goal.is_not(BOTTOM) {
                return br6();
            }
            if goal.is(EQUAL) && goal.child(0) == goal.child(1) {
                return r10();
            }
        }
        let premises = vec![self.core.yes.clone(), self.core.no.clone()];
        let p = self.core.p.clone();
        match goal.is(NOT) && self.world.rng.chance(50) {
            true => node(76, vec![p], premises),
            false => node(75, vec![p], premises),
        }
    }

    fn by_member(&mut self, goal: &Expr) -> Script {
        let br1 = || node(64, vec![], vec![]);
        if self.members.iter().all(|f| f == goal) && self.world.rng.chance(60) {
            return br1();
        }
        match self.world.rng.below(8) {
            0 => node(65, vec![goal.clone()], vec![br1()]),
            1 => {
                let times = self.world.rng.range(1, 4);
                node(65, vec![goal.clone(); times], vec![br1()])
            }
            2 => {
                let mut kept = self.some_members(3);
                let place = self.world.rng.below(kept.len() + 1);
                kept.insert(place, goal.clone());
                node(65, kept, vec![br3()])
            }
            3 => node(67, vec![goal.clone()], vec![br3(), br3()]),
            _ => br3(),
        }
    }

    fn some_members(&mut self, most: usize) -> Vec<Expr> {
        let count = self.world.rng.below(most + 1);
        (0..count)
            .map(|_| self.world.rng.pick(&self.members).clone())
            .collect()
    }

    fn random_formula(&mut self) -> Expr {
        match self.world.rng.below(4) {
            0 => self.world.rng.pick(&self.members).clone(),
            _ => {
                let depth = self.world.rng.below(3);
                self.world.closed_formula(depth).plain()
            }
        }
    }

    fn random_term(&mut self, goal: &Expr) -> Expr {
        let mut terms = Vec::new();
        goal.closed_terms(&mut terms);
        match terms.is_empty() || self.world.rng.chance(20) {
            true => {
                let ty = self.world.closed_type(1);
                self.world.term(&ty, &Scope::default(), 2).plain()
            }
            false => self.world.rng.pick(&terms).clone(),
        }
    }

    fn hollow(&mut self, formula: &Expr, term: &Expr) -> Expr {
        let often = *self.world.rng.pick(&[100, 60, 0]);
        let mut rng = self.world.rng.clone();
        let body = formula.hollow(term, None, &mut || rng.chance(often));
        self.world.rng = rng;
        body
    }

    fn step(&mut self, goal: &Expr) -> Option<Step> {
        use Members::{Only, Same, With};
        let make = |kind, parts, premises| {
            Some(Step {
                kind,
                parts,
                premises,
            })
        };
        // By the goal's sign as often as not.
        if self.world.rng.chance(50) {
            match goal.kind() {
                AND => {
                    let premises = vec![(Same, goal.child(0)), (Same, goal.child(1))];
                    return make(70, vec![], premises);
                }
                IMPLIES => {
                    return make(73, vec![], vec![(With(goal.child(0)), goal.child(1))]);
                }
                NOT => {
                    let (p, q) = (self.random_formula(), goal.child(0));
                    let premises = vec![(With(q.clone()), p.clone()), (With(q), not(p.clone()))];
                    return make(76, vec![p], premises);
                }
                ALL => {
                    let c = constant(self.fresh(goal));
                    let instance = goal.body().put(&c);
                    let parts = vec![c, instance.clone()];
                    return make(77, parts, vec![(Same, instance)]);
                }
                _ => {}
            }
        }
        match self.world.rng.below(12) {
            0 | 1 => {
                let mut kept = self.some_members(self.members.len().min(6));
                for core in self.core.members.clone() {
                    let place = self.world.rng.below(kept.len() + 1);
                    kept.insert(place, core);
                }
                make(65, kept.clone(), vec![(Only(kept), goal.clone())])
            }
            2 => {
                let p = self.random_formula();
                let premises = vec![(Same, p.clone()), (With(p.clone()), goal.clone())];
                make(67, vec![p], premises)
            }
            3 => {
                let p = self.random_formula();
                let part = implies(p.clone(), goal.clone());
                make(69, vec![part.clone()], vec![(Same, p), (Same, part)])
            }
            4 => {
                let part = and(goal.clone(), self.random_formula());
                make(71, vec![part.clone()], vec![(Same, part)])
            }
            5 => {
                let part = and(self.random_formula(), goal.clone());
                make(72, vec![part.clone()], vec![(Same, part)])
            }
            6 => {
                let p = self.world.rng.pick(&self.members).clone();
                let part = implies(p, goal.clone());
                make(74, vec![part.clone()], vec![(Same, part)])
            }
            7 | 8 => {
                let p = self.random_formula();
                let denied = not(goal.clone());
                let premises = vec![
                    (With(denied.clone()), p.clone()),
                    (With(denied), not(p.clone())),
                ];
                make(75, vec![p], premises)
            }
            9 => {
                let term = self.random_term(goal);
                let body = self.hollow(goal, &term);
                let quantified = plain_all(body);
                let parts = vec![quantified.clone(), term];
                make(78, parts, vec![(Same, quantified)])
            }
            _ => {
                let right = self.random_term(goal);
                let body = self.hollow(goal, &right);
                let left = self.random_term(goal);
                let equation = equal(left.clone(), right);
                let with_left = body.put(&left);
                let parts = vec![body, equation.clone(), with_left.clone()];
                make(79, parts, vec![(Same, equation), (Same, with_left)])
            }
        }
    }

    /// A constant in neither the members nor the goal.
    fn fresh(&mut self, goal: &Expr) -> u32 {
        for _ in 0..3 {
            if self.world.constants.is_empty() {
                break;
            }
            let c = self.world.rng.below(self.world.constants.len()) as u32;
            if !goal.has_constant(c) && !self.members.iter().any(|f| f.has_constant(c)) {
                return c;
            }
        }
        let ty = self.world.closed_type(1);
        self.world.new_constant(ty)
    }
}

// ---------------------------------------------------------------- forwards

fn forwards(world: &mut World, shape: Shape) -> Draft {
    let mut hypotheses: Vec<Expr> = (0..shape.hypotheses)
        .map(|_| world.closed_formula(shape.depth))
        .collect();
    let depth = match shape.budget {
        0..=2 => 1,
        3..=9 => 2,
        10..=30 => 4,
        _ => 6,
    };
    if world.choices > 0 && world.rng.chance(35) {
        hypotheses.extend(set5::hypotheses(world));
    }
    let (goal, script) = derive(world, &mut hypotheses, depth);
    if world.rng.chance(20) && !script.uses_br1() {
        let h = world.polymorphic(shape.depth);
        hypotheses.push(h);
    }
    let mut tree = Tree::default();
    let root = tree.add(0, vec![]);
    script.plain().plant(&mut tree, root);
    Draft {
        hypotheses,
        negated_goal: not(goal),
        tree,
    }
}

impl Script {
    /// A BR1 that is not right above a BR2 needs the very members that it was made for.
    fn uses_br1(&self) -> bool {
        self.kind == 64 || (self.kind != 65 && self.premises.iter().any(Script::uses_br1))
    }
}

/// A goal and its derivation from these members. The derivation holds from more members too.
fn derive(world: &mut World, members: &mut Vec<Expr>, depth: usize) -> (Expr, Script) {
    if depth == 0 {
        return derive_at_once(world, members);
    }
    let down = depth - 1;
    match world.rng.below(17) {
        0 => derive_at_once(world, members),
        1 => {
            let (p, first) = derive(world, members, down);
            let (q, second) = derive(world, members, down);
            (and(p, q), node(70, vec![], vec![first, second]))
        }
        2 | 3 => {
            let (p, first) = derive(world, members, down);
            let (q, second) = derive(world, members, down);
            let both = and(p.clone(), q.clone());
            let joined = node(70, vec![], vec![first, second]);
            match world.rng.chance(50) {
                true => (p, node(71, vec![both], vec![joined])),
                false => (q, node(72, vec![both], vec![joined])),
            }
        }
        4 | 5 => {
            let p = world.closed_formula(1);
            let (q, script) = derive_with(world, members, &p, down);
            (implies(p, q), node(73, vec![], vec![script]))
        }
        6 => {
            let (p, first) = derive(world, members, down);
            let (q, second) = derive_with(world, members, &p, down);
            let part = implies(p, q.clone());
            let discharged = node(73, vec![], vec![second]);
            (q, node(69, vec![part], vec![first, discharged]))
        }
        7 if !members.is_empty() => {
            let p = world.rng.pick(members).clone();
            let (q, script) = derive_with(world, members, &p, down);
            let part = implies(p, q.clone());
            let discharged = node(73, vec![], vec![script]);
            (q, node(74, vec![part], vec![discharged]))
        }
        8 => {
            let (q, script) = derive(world, members, down);
            (q.clone(), node(75, vec![q], vec![script, br3()]))
        }
        9 => {
            let (p, script) = derive(world, members, down);
            let goal = not(not(p.clone()));
            (goal, node(76, vec![p], vec![script, br3()]))
        }
        10 | 11 => derive_all(world, members, down),
        12 | 13 => {
            let (quantified, script) = derive_all(world, members, down);
            let term = world.term(&quantified.child(0), &Scope::default(), 2);
            let goal = quantified.body().put(&term);
            (goal, node(78, vec![quantified, term], vec![script]))
        }
        14 => derive_replaced(world, members, down),
        15 => {
            let count = world.rng.below(4).min(members.len());
            let mut kept: Vec<Expr> = (0..count)
                .map(|_| world.rng.pick(members).clone())
                .collect();
            let parts = kept.clone();
            let (goal, script) = derive(world, &mut kept, down);
            (goal, node(65, parts, vec![script]))
        }
        _ => {
            let (p, first) = derive(world, members, down);
            let (q, second) = derive_with(world, members, &p, down);
            (q, node(67, vec![p], vec![first, second]))
        }
    }
}

fn derive_with(
    world: &mut World,
    members: &mut Vec<Expr>,
    more: &Expr,
    depth: usize,
) -> (Expr, Script) {
    members.push(more.clone());
    let found = derive(world, members, depth);
    members.pop();
    found
}

fn derive_at_once(world: &mut World, members: &mut [Expr]) -> (Expr, Script) {
    if world.rng.chance(30) {
        if let Some(found) = set5::derive_from(world, members) {
            return found;
        }
    }
    match world.rng.below(6) {
        0 => (not(bottom()), br6()),
        1 => (top(), br6()),
        2..=4 if !members.is_empty() => {
            let goal = world.rng.pick(members).clone();
            let br1 = node(64, vec![], vec![]);
            let script = match world.rng.below(4) {
                0 => node(65, vec![goal.clone()], vec![br1]),
                _ => br3(),
            };
            (goal, script)
        }
        _ => {
            let ty = world.closed_type(1);
            let t = world.term(&ty, &Scope::default(), 1);
            (refl(&t), r10())
        }
    }
}

/// A quantified goal, by a constant of its own.
fn derive_all(world: &mut World, members: &mut Vec<Expr>, depth: usize) -> (Expr, Script) {
    let ty = world.quantified_type(&Scope::default());
    let c = constant(world.new_reserved(ty.clone()));
    let mut scope = Scope::default();
    scope.bound.push(ty.clone());
    let (body, script) = match world.rng.below(3) {
        0 => {
            let (q, script) = derive(world, members, depth);
            (q, script)
        }
        1 => {
            let x = bound(0, ty.clone());
            let t = match ty.is(SET_TYPE) && world.choices > 0 {
                true => choice(x, ty.child(0)),
                false => world.term(&ty, &scope, 2),
            };
            (refl(&t), r10())
        }
        _ => {
            let p = world.formula(&mut scope, 2);
            let script = node(73, vec![], vec![br3()]);
            (implies(p.clone(), p), script)
        }
    };
    let instance = body.put(&c);
    let script = node(77, vec![c, instance], vec![script]);
    (all(ty, body), script)
}

/// B(F) from E=F and B(E), where E=F is a member or E is F.
fn derive_replaced(world: &mut World, members: &mut Vec<Expr>, depth: usize) -> (Expr, Script) {
    let (q, second) = derive(world, members, depth);
    let equations: Vec<Expr> = members.iter().filter(|f| f.is(EQUAL)).cloned().collect();
    let mut terms = Vec::new();
    q.closed_terms(&mut terms);
    let (equation, first) = if !equations.is_empty() && world.rng.chance(60) {
        (world.rng.pick(&equations).clone(), br3())
    } else {
        let ty = world.closed_type(1);
        let t = match terms.is_empty() {
            true => world.term(&ty, &Scope::default(), 1),
            false => world.rng.pick(&terms).clone(),
        };
        (refl(&t), r10())
    };
    let (left, right) = (equation.child(0), equation.child(1));
    let ty = world.type_of(&left);
    let mut rng = world.rng.clone();
    let body = q.hollow(&left, Some(&ty), &mut || rng.chance(70));
    world.rng = rng;
    let goal = body.put(&right);
    (goal, node(79, vec![body, equation, q], vec![first, second]))
}
