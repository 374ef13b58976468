//! Leaves about choices: nodes that are refused for a known reason, and nodes that pass where a careless check would
//! see a fault.

use super::expect::Expect;
use super::expr::*;
use super::proofs::Draft;
use super::refute::{node, Script};
use super::set5::over_sets;
use super::world::World;

/// Symbols of their own, so that no member has them.
struct Kit {
    /// A rule of the file that has no premises.
    closing: u32,
    ty: Expr,
    /// The type of sets.
    sets: Expr,
    c: Expr,
    s: Expr,
    other: Expr,
    /// A set of sets.
    t: Expr,
    of_s: Expr,
    of_other: Expr,
    /// choice(t), a set.
    of_t: Expr,
    /// choice(s) = c.
    p: Expr,
    /// choice(other) = c.
    q: Expr,
    /// Index 0 as a set, and a choice of it.
    y: Expr,
    of_y: Expr,
}

fn kit(world: &mut World, closing: u32) -> Kit {
    let ty = world.closed_type(1);
    let sets = set_type(ty.clone());
    let mut new = |ty: &Expr| constant(world.new_reserved(ty.clone()));
    let (c, s, other) = (new(&ty), new(&sets), new(&sets));
    let t = new(&set_type(sets.clone()));
    let y = bound(0, sets.clone());
    let [of_s, of_other, of_y] = [&s, &other, &y].map(|set| choice(set.clone(), ty.clone()));
    Kit {
        closing,
        of_t: choice(t.clone(), sets.clone()),
        p: equal(of_s.clone(), c.clone()),
        q: equal(of_other.clone(), c.clone()),
        ty,
        sets,
        c,
        s,
        other,
        t,
        of_s,
        of_other,
        y,
        of_y,
    }
}

impl Kit {
    /// A node that the walk never gets to.
    fn leaf(&self) -> Script {
        node(self.closing, &[], vec![])
    }

    fn one(&self) -> Vec<Script> {
        vec![self.leaf()]
    }

    fn two(&self) -> Vec<Script> {
        vec![self.leaf(), self.leaf()]
    }

    fn over_sets(&self, body: Expr) -> Expr {
        all(self.sets.clone(), body)
    }

    /// ∀y·choice(y) = the term.
    fn all_are(&self, term: &Expr) -> Expr {
        self.over_sets(equal(self.of_y.clone(), term.clone()))
    }
}

/// A formula that a cut brings in, and the node that has it as a member.
type Brought = (Expr, Script);

/// In place of a proof's leaf, which is given.
pub fn proof(world: &mut World, draft: &mut Draft, closing: Script) -> (Script, Expect) {
    let k = kit(world, 32);
    if world.rng.chance(25) {
        return (fresh_in_proof(world, &k, closing), Expect::Accepted);
    }
    let (list, refusal) = match world.rng.below(8) {
        0 => (wrong_form(&k), 13),
        1 => (absent(&k), 14),
        2 | 3 => (misfit(&k), 15),
        4 => (open(&k), 15),
        5 => (misplaced(&k), 15),
        6 => return (axiom_misused(world, draft, &k), Expect::Refusal(15)),
        _ => (not_fresh(world, draft, &k), 16),
    };
    refused_after(37, world, &k, &list, refusal)
}

/// One of the list: the rule, a cut, brings in the formula, and the odd node on it is refused.
fn refused_after(
    rule: u32,
    world: &mut World,
    k: &Kit,
    list: &[Brought],
    refusal: u64,
) -> (Script, Expect) {
    let (brought, odd) = world.rng.pick(list).clone();
    let script = Script::new(rule, vec![brought], vec![odd, k.leaf()]);
    (script, Expect::Refusal(refusal))
}

/// A choice where a constant, a formula or a type is asked for.
fn wrong_form(k: &Kit) -> Vec<Brought> {
    let (p, of_s) = (&k.p, &k.of_s);
    let equation = equal(bound(0, k.ty.clone()), k.c.clone());
    let not_all = not(all(k.ty.clone(), equation));
    let over = k.all_are(&k.c);
    let h = all_types(1, over_sets(&type_variable(0)));
    let instance = over_sets(&k.ty);
    vec![
        (not_all.clone(), node(43, &[&not_all, of_s, p], k.one())),
        (p.clone(), node(34, &[of_s], vec![])),
        (p.clone(), node(37, &[of_s], k.two())),
        (over.clone(), node(44, &[&over, &k.s, of_s], k.one())),
        (p.clone(), node(45, &[&h, &instance, of_s], k.one())),
        (p.clone(), node(46, &[of_s, &k.s, &k.s, p, p], k.two())),
        (p.clone(), node(46, &[p, &k.s, &k.s, of_s, p], k.two())),
    ]
}

/// Members that differ from what is needed beneath a choice.
fn absent(k: &Kit) -> Vec<Brought> {
    let (p, q) = (&k.p, &k.q);
    let sides = equal(k.of_s.clone(), k.of_other.clone());
    let body = equal(k.of_y.clone(), k.c.clone());
    let over = k.all_are(&k.c);
    let turned = k.over_sets(equal(k.c.clone(), k.of_y.clone()));
    vec![
        (not(p.clone()), node(34, &[q], vec![])),
        (p.clone(), node(34, &[p], vec![])),
        (sides.clone(), node(36, &[&sides], vec![])),
        (p.clone(), node(46, &[&body, &k.other, &k.s, q, p], k.two())),
        (over, node(44, &[&turned, &k.s, p], k.one())),
    ]
}

/// Unequal choices where equal ones are asked for.
fn misfit(k: &Kit) -> Vec<Brought> {
    let (p, q) = (&k.p, &k.q);
    let unlike = not(equal(k.of_s.clone(), k.of_other.clone()));
    let unlike_sets = not(equal(k.s.clone(), k.of_t.clone()));
    let not_p = not(p.clone());
    let over = k.all_are(&k.c);
    let not_over = not(over.clone());
    let body = equal(k.of_y.clone(), k.c.clone());
    let same = refl(&k.c);
    vec![
        (unlike.clone(), node(35, &[&unlike], vec![])),
        (unlike_sets.clone(), node(35, &[&unlike_sets], vec![])),
        (not_p.clone(), node(35, &[&not_p], vec![])),
        (over.clone(), node(44, &[&over, &k.s, q], k.one())),
        (over.clone(), node(44, &[&over, &k.s, &same], k.one())),
        (not_over.clone(), node(43, &[&not_over, &k.s, q], k.one())),
        (p.clone(), node(46, &[&body, &k.s, &k.other, p, p], k.two())),
        (p.clone(), node(46, &[&body, &k.other, &k.s, p, p], k.two())),
    ]
}

/// An unbound index or a type variable beneath a choice.
fn open(k: &Kit) -> Vec<Brought> {
    let p = &k.p;
    let about = |index: u32| {
        let set = bound(index, k.sets.clone());
        equal(choice(set, k.ty.clone()), k.c.clone())
    };
    let v = type_variable(0);
    let of_v = choice(bound(0, set_type(v.clone())), v.clone());
    let over_v = all(set_type(v), refl(&of_v));
    let over = k.all_are(&k.c);
    let over_nothing = all(k.ty.clone(), p.clone());
    let parts = [&over_nothing, &k.of_y, p];
    let of_of_t = choice(k.of_t.clone(), k.ty.clone());
    vec![
        (p.clone(), node(37, &[&about(0)], k.two())),
        (p.clone(), node(37, &[&about(63)], k.two())),
        (p.clone(), node(37, &[&over_v], k.two())),
        (over.clone(), node(44, &[&over, &k.s, &about(0)], k.one())),
        (over.clone(), node(44, &[&over, &k.y, &about(0)], k.one())),
        (over_nothing.clone(), node(44, &parts, k.one())),
        (p.clone(), node(46, &[&about(1), &k.s, &k.s, p, p], k.two())),
        (p.clone(), node(46, &[p, &of_of_t, &k.of_y, p, p], k.two())),
    ]
}

/// A choice of another type than the place, and binders not counted around a choice.
fn misplaced(k: &Kit) -> Vec<Brought> {
    let p = &k.p;
    let over_nothing = all(k.ty.clone(), p.clone());
    let outer = choice(bound(1, k.sets.clone()), k.ty.clone());
    let both = k.over_sets(k.over_sets(equal(outer, k.of_y.clone())));
    let wrong = k.over_sets(equal(k.of_y.clone(), k.of_s.clone()));
    let same = k.over_sets(refl(&k.of_y));
    let parts = [&over_nothing, &k.of_t, p];
    vec![
        (over_nothing.clone(), node(44, &parts, k.one())),
        (both.clone(), node(44, &[&both, &k.s, &wrong], k.one())),
        (both.clone(), node(44, &[&both, &k.s, &same], k.one())),
        (p.clone(), node(46, &[p, &k.of_s, &k.of_t, p, p], k.two())),
    ]
}

/// The constant is in s of a member's choice only.
fn not_fresh(world: &mut World, draft: &mut Draft, k: &Kit) -> Vec<Brought> {
    let every = not(k.over_sets(refl(&k.of_y)));
    let instance = refl(&k.of_s);
    let taken = node(43, &[&every, &k.s, &instance], k.one());
    let later = node(37, &[&every], vec![taken.clone(), k.leaf()]);
    let of_s = not(k.all_are(&k.of_s));
    let deep = choice(k.of_t.clone(), k.ty.clone());
    let sets_of_sets = set_type(k.sets.clone());
    let z = choice(bound(0, sets_of_sets.clone()), k.sets.clone());
    let every_deep = not(all(sets_of_sets, refl(&z)));
    let taken_deep = node(43, &[&every_deep, &k.t, &refl(&k.of_t)], k.one());
    let later_deep = node(37, &[&every_deep], vec![taken_deep, k.leaf()]);
    if world.rng.chance(30) {
        draft.hypotheses.push(all_types(1, k.p.clone()));
        return vec![(every, taken)];
    }
    vec![
        (k.p.clone(), later),
        (of_s.clone(), node(43, &[&of_s, &k.s, &instance], k.one())),
        (equal(deep, k.c.clone()), later_deep),
    ]
}

/// Rule 45 on the axiom with an instance that isn't one.
fn axiom_misused(world: &mut World, draft: &mut Draft, k: &Kit) -> Script {
    let (v, w) = (type_variable(0), type_variable(1));
    let h = all_types(2, over_sets(&v));
    draft.hypotheses.push(h.clone());
    let right = over_sets(&k.ty);
    let implied = right.body();
    let other = member(k.c.clone(), k.y.clone());
    let unchosen = k.over_sets(implies(implied.child(0), other));
    let over_v = over_sets(&v);
    let list = [
        [&h, &over_sets(&k.sets), &k.ty, &k.sets],
        [&h, &right, &k.sets, &k.ty],
        [&h, &unchosen, &k.ty, &k.ty],
        [&h, &over_v, &v, &k.ty],
        [&h, &right, &k.ty, &w],
    ];
    let parts: &[&Expr; 4] = world.rng.pick(&list);
    node(45, parts, k.one())
}

/// Fresh though members have choices: ¬∀y·choice(y)=choice(y) refuted by a constant that is in none of them.
fn fresh_in_proof(world: &mut World, k: &Kit, closing: Script) -> Script {
    let every = not(k.over_sets(refl(&k.of_y)));
    let instance = refl(&k.of_s);
    let close = node(35, &[&not(instance.clone())], vec![]);
    let fresh = node(43, &[&every, &k.s, &instance], vec![close]);
    let brought = node(37, &[&every], vec![fresh, closing.clone()]);
    let in_choice = member(k.c.clone(), k.of_t.clone());
    let other = [k.q.clone(), refl(&k.of_other), in_choice];
    node(37, &[world.rng.pick(&other)], vec![brought, closing])
}

/// In place of a derivation's leaf, which is given.
pub fn derivation(world: &mut World, closing: Script) -> (Script, Expect) {
    let k = kit(world, 66);
    if world.rng.chance(25) {
        return passing(world, &k, closing);
    }
    let (list, refusal) = match world.rng.below(6) {
        0 => (goals_of_wrong_form(&k), 13),
        1 => (goals_absent(&k), 14),
        2 | 3 => (goals_misfit(&k), 15),
        4 => (goals_open(&k), 15),
        _ => (goals_not_fresh(&k), 16),
    };
    refused_after(67, world, &k, &list, refusal)
}

/// A choice where a constant or a formula is asked for: a goal and the node on it.
fn goals_of_wrong_form(k: &Kit) -> Vec<Brought> {
    let (p, of_s) = (&k.p, &k.of_s);
    let equation = equal(bound(0, k.ty.clone()), k.c.clone());
    let every = all(k.ty.clone(), equation);
    vec![
        (every.clone(), node(77, &[of_s, p], k.one())),
        (p.clone(), node(78, &[of_s, &every], k.one())),
        (p.clone(), node(65, &[of_s], k.one())),
        (p.clone(), node(67, &[of_s], k.two())),
        (p.clone(), node(75, &[of_s], k.two())),
        (p.clone(), node(79, &[of_s, &refl(of_s), p], k.two())),
        (p.clone(), node(79, &[p, of_s, p], k.two())),
    ]
}

/// A member that differs from the goal beneath a choice, or in the choice's own sign.
fn goals_absent(k: &Kit) -> Vec<Brought> {
    let power = powerset(k.s.clone(), set_type(k.sets.clone()));
    let about = |term: &Expr| equal(term.clone(), k.c.clone());
    let br3 = || node(66, &[], vec![]);
    let after = |member: &Expr, goal: &Expr| {
        let r3 = node(73, &[], vec![br3()]);
        (implies(member.clone(), goal.clone()), r3)
    };
    vec![
        after(&k.q, &k.p),
        after(&about(&power), &k.p),
        after(&k.p, &about(&power)),
        after(&about(&k.s), &k.p),
        (
            k.p.clone(),
            node(74, &[&implies(k.q.clone(), k.p.clone())], k.one()),
        ),
    ]
}

/// Unequal choices where equal ones are asked for.
fn goals_misfit(k: &Kit) -> Vec<Brought> {
    let (p, q) = (&k.p, &k.q);
    let power = powerset(k.s.clone(), set_type(k.sets.clone()));
    let over = k.all_are(&k.c);
    let body = equal(k.of_y.clone(), k.c.clone());
    let equation = equal(k.s.clone(), k.other.clone());
    let sides =
        [&k.of_other, &power, &k.s, &k.of_t].map(|side| equal(k.of_s.clone(), side.clone()));
    let unequal = sides.map(|goal| (goal, node(80, &[], vec![])));
    let others = vec![
        (q.clone(), node(78, &[&over, &k.s], k.one())),
        (over.clone(), node(77, &[&k.s, q], k.one())),
        (p.clone(), node(79, &[&body, &equation, p], k.two())),
        (q.clone(), node(79, &[&body, &equation, q], k.two())),
        (q.clone(), node(71, &[&and(p.clone(), q.clone())], k.one())),
    ];
    [&unequal[..], &others].concat()
}

fn goals_open(k: &Kit) -> Vec<Brought> {
    let p = &k.p;
    let about = |index: u32| {
        let set = bound(index, k.sets.clone());
        equal(choice(set, k.ty.clone()), k.c.clone())
    };
    let over_nothing = all(k.ty.clone(), p.clone());
    vec![
        (p.clone(), node(67, &[&about(0)], k.two())),
        (p.clone(), node(75, &[&about(63)], k.two())),
        (p.clone(), node(72, &[&and(about(0), p.clone())], k.one())),
        (p.clone(), node(78, &[&over_nothing, &k.of_y], k.one())),
        (p.clone(), node(79, &[&about(1), &refl(&k.s), p], k.two())),
        (p.clone(), node(79, &[p, &refl(&k.of_y), p], k.two())),
    ]
}

/// The constant of R7 is in s of a choice only, of the goal or of a member.
fn goals_not_fresh(k: &Kit) -> Vec<Brought> {
    let every = k.over_sets(refl(&k.of_y));
    let taken = node(77, &[&k.s, &refl(&k.of_s)], k.one());
    let deep = equal(choice(k.of_t.clone(), k.ty.clone()), k.c.clone());
    let taken_deep = node(77, &[&k.t, &refl(&k.of_t)], k.one());
    let z = choice(bound(0, set_type(k.sets.clone())), k.sets.clone());
    let every_deep = all(set_type(k.sets.clone()), refl(&z));
    let after = |member: &Expr, goal: &Expr, odd: Script| {
        let r3 = node(73, &[], vec![odd]);
        (implies(member.clone(), goal.clone()), r3)
    };
    vec![
        (k.all_are(&k.of_s), taken.clone()),
        after(&k.p, &every, taken),
        after(&deep, &every_deep, taken_deep),
    ]
}

/// Goals that hold: a fresh constant, equal choices. BR1 may close no leaf that has a member more.
fn passing(world: &mut World, k: &Kit, closing: Script) -> (Script, Expect) {
    let r10 = node(80, &[], vec![]);
    let fresh = node(77, &[&k.s, &refl(&k.of_s)], vec![r10.clone()]);
    let every = k.over_sets(refl(&k.of_y));
    let after_q = node(73, &[], vec![fresh.clone()]);
    let body = equal(k.of_s.clone(), k.of_y.clone());
    let replaced = node(
        79,
        &[&body, &refl(&k.s), &refl(&k.of_s)],
        vec![r10.clone(); 2],
    );
    let list = [
        (refl(&k.of_s), r10.clone()),
        (refl(&choice(k.of_t.clone(), k.ty.clone())), r10),
        (refl(&k.of_s), replaced),
        (every.clone(), fresh),
        (implies(k.q.clone(), every), after_q),
    ];
    let (goal, right) = world.rng.pick(&list).clone();
    let expect = match closing.kind {
        64 => Expect::Any,
        _ => Expect::Accepted,
    };
    (Script::new(67, vec![goal], vec![right, closing]), expect)
}
