//! Directed damage: one leaf of an accepted tree becomes a node that is refused for a known reason, or one about
//! choices that passes.
//!
//! A cut (rule 37 in proofs, BR4 in derivations) first brings in a formula that no other step has, so that
//! members and goal are known well enough to tell the refusal.

use super::expect::Expect;
use super::expr::*;
use super::odd_choices;
use super::proofs::Draft;
use super::refute::Script;
use super::world::World;
use super::writer::TreeNode;

/// Symbols of its own for the odd leaf.
struct Kit {
    ty: Expr,
    c: Expr,
    d: Expr,
    /// A constant of another type.
    other: Expr,
    /// Closed formulas that are no members.
    p: Expr,
    q: Expr,
    x: Expr,
}

fn kit(world: &mut World) -> Kit {
    let ty = world.closed_type(1);
    let other_ty = set_type(ty.clone());
    let c = constant(world.new_reserved(ty.clone()));
    let d = constant(world.new_reserved(ty.clone()));
    let other = constant(world.new_reserved(other_ty));
    let p = equal(c.clone(), d.clone());
    let q = member(c.clone(), other.clone());
    let x = bound(0, ty.clone());
    Kit {
        ty,
        c,
        d,
        other,
        p,
        q,
        x,
    }
}

fn node(kind: u32, parts: Vec<Expr>, premises: Vec<Script>) -> Script {
    Script::new(kind, parts, premises)
}

/// Puts an odd node in place of a random leaf, which has no premises.
pub fn odd_leaf(world: &mut World, draft: &mut Draft) -> Expect {
    let count = draft.tree.nodes.len();
    let from = world.rng.below(count);
    let leaf = (0..count)
        .map(|i| (from + i) % count)
        .find(|&i| draft.tree.nodes[i].premises.is_empty())
        .unwrap_or(0);
    let derivation = draft.tree.nodes[0].kind >= 64;
    let about_choices = world.rng.chance(35);
    let TreeNode { kind, parts, .. } = draft.tree.nodes[leaf].clone();
    let closing = node(kind, parts, vec![]);
    let known = |(script, refusal)| (script, Expect::Refusal(refusal));
    let (script, expect) = match (derivation, about_choices) {
        (true, false) => known(odd_derivation(world)),
        (true, true) => odd_choices::derivation(world, closing),
        (false, false) => known(odd_proof(world, draft)),
        (false, true) => odd_choices::proof(world, draft, closing),
    };
    let script = if derivation { script.plain() } else { script };
    script.plant(&mut draft.tree, leaf);
    expect
}

/// A node for a proof with any members.
fn odd_proof(world: &mut World, draft: &mut Draft) -> (Script, u64) {
    let k = kit(world);
    let leaf = || node(32, vec![], vec![]);
    let two = || vec![leaf(), leaf()];
    let one = || vec![leaf()];
    // The cut formula, then the odd node that has it as a member.
    let (brought, odd, refusal) = match world.rng.below(38) {
        0 => (k.p.clone(), node(38, vec![not(k.p.clone())], one()), 13),
        1 => (k.p.clone(), node(39, vec![k.p.clone()], one()), 13),
        2 => {
            let f = not(and(k.p.clone(), k.q.clone()));
            (f.clone(), node(40, vec![f], one()), 13)
        }
        3 => {
            let f = not(implies(k.p.clone(), k.q.clone()));
            (f.clone(), node(42, vec![f], two()), 13)
        }
        4 => (k.p.clone(), node(41, vec![k.p.clone()], two()), 13),
        5 => (k.q.clone(), node(36, vec![k.q.clone()], vec![]), 13),
        6 => (k.p.clone(), node(35, vec![k.p.clone()], vec![]), 13),
        7 => {
            let f = not(all(k.ty.clone(), k.p.clone()));
            let pairs = pair_type(k.ty.clone(), k.ty.clone());
            let both = pair(k.c.clone(), k.d.clone(), pairs);
            (f.clone(), node(43, vec![f, both, k.p.clone()], one()), 13)
        }
        8 => (k.p.clone(), node(34, vec![k.p.clone()], vec![]), 14),
        9 => {
            let f = not(k.p.clone());
            (f, node(34, vec![k.p.clone()], vec![]), 14)
        }
        10 => (k.p.clone(), node(36, vec![k.p.clone()], vec![]), 14),
        11 => {
            // The same way round is not the other way round.
            let f = and(k.p.clone(), not(k.p.clone()));
            let close = node(36, vec![k.p.clone()], vec![]);
            (f.clone(), node(39, vec![f], vec![close]), 14)
        }
        12 => (
            k.p.clone(),
            node(38, vec![not(not(k.p.clone()))], one()),
            14,
        ),
        13 => {
            let f = and(k.p.clone(), k.q.clone());
            let turned = and(k.q.clone(), k.p.clone());
            (f, node(39, vec![turned], one()), 14)
        }
        14 => {
            // ⊤ is not ¬⊥ here.
            let f = and(k.p.clone(), top());
            let like = and(k.p.clone(), not(bottom()));
            (f, node(39, vec![like], one()), 14)
        }
        15 => {
            // Quantifiers over two types, alike but for them.
            let f = all(k.ty.clone(), k.p.clone());
            let like = all(set_type(k.ty.clone()), k.p.clone());
            (
                f,
                node(44, vec![like, k.other.clone(), k.p.clone()], one()),
                14,
            )
        }
        16 => {
            let f = not(k.p.clone());
            (f.clone(), node(35, vec![f], vec![]), 15)
        }
        17 => {
            let open = equal(k.x.clone(), k.c.clone());
            (k.p.clone(), node(37, vec![open], two()), 15)
        }
        18 => {
            let v = type_variable(0);
            (k.p.clone(), node(37, vec![all(v, k.p.clone())], two()), 15)
        }
        19 => {
            // Not fresh either by half: 15 comes before 16.
            let right = world.rng.pick(&[k.x.clone(), k.c.clone()]).clone();
            let f = not(all(k.ty.clone(), equal(k.x.clone(), right)));
            let wrong = equal(k.c.clone(), k.d.clone());
            (f.clone(), node(43, vec![f, k.c.clone(), wrong], one()), 15)
        }
        20 => {
            let f = not(all(k.ty.clone(), k.p.clone()));
            let parts = vec![f.clone(), k.other.clone(), k.p.clone()];
            (f, node(43, parts, one()), 15)
        }
        21 => {
            let f = all(k.ty.clone(), k.p.clone());
            let parts = vec![f.clone(), k.other.clone(), k.p.clone()];
            (f, node(44, parts, one()), 15)
        }
        22 => {
            let f = all(k.ty.clone(), k.p.clone());
            let parts = vec![f.clone(), k.x.clone(), k.p.clone()];
            (f, node(44, parts, one()), 15)
        }
        23 => {
            // Binders not counted: the inner variable is replaced, not the outer one.
            let y = bound(1, k.ty.clone());
            let inner = all(k.ty.clone(), equal(k.x.clone(), y.clone()));
            let f = all(k.ty.clone(), inner);
            let wrong = all(k.ty.clone(), equal(k.c.clone(), k.x.clone()));
            (f.clone(), node(44, vec![f, k.c.clone(), wrong], one()), 15)
        }
        24 => {
            // t and u of two types, B without a place.
            let parts = vec![
                k.p.clone(),
                k.c.clone(),
                k.other.clone(),
                k.p.clone(),
                k.p.clone(),
            ];
            (k.p.clone(), node(46, parts, two()), 15)
        }
        25 => {
            // B(u) replaces one place too few.
            let f = equal(k.c.clone(), k.c.clone());
            let body = equal(k.x.clone(), k.x.clone());
            let parts = vec![body, k.c.clone(), k.d.clone(), f.clone(), k.p.clone()];
            (f, node(46, parts, two()), 15)
        }
        26 => {
            // B open in another index.
            let body = equal(bound(1, k.ty.clone()), k.d.clone());
            let parts = vec![body, k.c.clone(), k.d.clone(), k.p.clone(), k.p.clone()];
            (k.p.clone(), node(46, parts, two()), 15)
        }
        27 | 32 => return odd_types(world, draft, k),
        33..=35 => return wrong_side(world, k),
        36 | 37 => return another_function(world, k),
        28 => {
            let f = not(all(k.ty.clone(), equal(k.x.clone(), k.c.clone())));
            let instance = equal(k.c.clone(), k.c.clone());
            (
                f.clone(),
                node(43, vec![f, k.c.clone(), instance], one()),
                16,
            )
        }
        29 => return in_older_member(k),
        30 => {
            // In the newest member only, which a rule 43 brought in.
            let f = not(all(k.ty.clone(), equal(k.x.clone(), k.x.clone())));
            let instance = equal(k.c.clone(), k.c.clone());
            let again = node(43, vec![f.clone(), k.c.clone(), instance.clone()], one());
            let first = node(43, vec![f.clone(), k.c.clone(), instance], vec![again]);
            (f, first, 16)
        }
        _ => {
            // In a kind 22 hypothesis only.
            let ty = k.ty.clone();
            draft.hypotheses.push(all_types(1, k.p.clone()));
            let f = not(all(ty, equal(k.x.clone(), k.x.clone())));
            let instance = equal(k.d.clone(), k.d.clone());
            (
                f.clone(),
                node(43, vec![f, k.d.clone(), instance], one()),
                16,
            )
        }
    };
    (node(37, vec![brought], vec![odd, leaf()]), refusal)
}

/// A constant that is in an older member only: p comes in, then ¬∀x·x=x, then p's constant is taken.
fn in_older_member(k: Kit) -> (Script, u64) {
    let leaf = || node(32, vec![], vec![]);
    let f = not(all(k.ty.clone(), equal(k.x.clone(), k.x.clone())));
    let instance = equal(k.c.clone(), k.c.clone());
    let odd = node(43, vec![f.clone(), k.c, instance], vec![leaf()]);
    let inner = node(37, vec![f], vec![odd, leaf()]);
    (node(37, vec![k.p], vec![inner, leaf()]), 16)
}

/// A rule that adds what it should, then a leaf that wants what another premise gets, or none.
fn wrong_side(world: &mut World, k: Kit) -> (Script, u64) {
    let leaf = || node(32, vec![], vec![]);
    let (p, q) = (k.p.clone(), k.q.clone());
    let implied = implies(p.clone(), q.clone());
    let not_both = not(and(p.clone(), q.clone()));
    let not_implied = not(implied.clone());
    let not_all = not(all(k.ty.clone(), equal(k.x.clone(), k.x.clone())));
    let (c_is_c, d_is_d) = (
        equal(k.c.clone(), k.c.clone()),
        equal(k.d.clone(), k.d.clone()),
    );
    let body = equal(k.x.clone(), k.x.clone());
    let subst = vec![
        body,
        k.c.clone(),
        k.d.clone(),
        c_is_c.clone(),
        d_is_d.clone(),
    ];
    // The rule, what it needs, which premise is looked at, and what that one lacks.
    let cases = [
        (37, vec![p.clone()], None, 0, not(p.clone())),
        (37, vec![p.clone()], None, 1, p.clone()),
        (38, vec![not(not(p.clone()))], None, 0, not(p.clone())),
        (39, vec![and(p.clone(), q.clone())], None, 0, not(q.clone())),
        (40, vec![not_implied.clone()], None, 0, q.clone()),
        (40, vec![not_implied], None, 0, not(p.clone())),
        (41, vec![implied.clone()], None, 0, p.clone()),
        (41, vec![implied.clone()], None, 0, q.clone()),
        (41, vec![implied.clone()], None, 1, p.clone()),
        (41, vec![implied], None, 1, not(p.clone())),
        (42, vec![not_both.clone()], None, 0, not(q.clone())),
        (42, vec![not_both.clone()], None, 0, p.clone()),
        (42, vec![not_both.clone()], None, 1, not(p.clone())),
        (42, vec![not_both], None, 1, q),
        (
            43,
            vec![not_all, k.c.clone(), c_is_c.clone()],
            None,
            0,
            c_is_c.clone(),
        ),
        (46, subst.clone(), Some(c_is_c.clone()), 0, d_is_d.clone()),
        (46, subst.clone(), Some(c_is_c.clone()), 0, p.clone()),
        (46, subst.clone(), Some(c_is_c.clone()), 1, not(p.clone())),
        (46, subst, Some(c_is_c), 1, not(equal(k.d, k.c))),
    ];
    let (rule, parts, member, side, lacking) = world.rng.pick(&cases).clone();
    // ¬X is brought in, so that rule 34 on X tells whether X is there.
    let odd = node(34, vec![lacking.clone()], vec![]);
    let premises = match (rule, side) {
        (37 | 41 | 42 | 46, 0) => vec![odd, leaf()],
        (37 | 41 | 42 | 46, _) => vec![leaf(), odd],
        _ => vec![odd],
    };
    let member = match (rule, member) {
        (_, Some(member)) => member,
        (37, None) => bottom(),
        _ => parts[0].clone(),
    };
    let step = node(rule, parts, premises);
    let with_member = node(37, vec![member], vec![step, leaf()]);
    if rule == 43 {
        // The constant must be fresh, so nothing with it may come in before.
        return (with_member, 14);
    }
    let with_denied = node(37, vec![not(lacking)], vec![with_member, leaf()]);
    (node(37, vec![bottom()], vec![with_denied, leaf()]), 14)
}

/// An instance that differs in a function symbol or a bound variable only.
fn another_function(world: &mut World, k: Kit) -> (Script, u64) {
    let leaf = || node(32, vec![], vec![]);
    let f = world.add_function(vec![k.ty.clone(), k.ty.clone()], 0);
    let g = world.add_function(vec![k.ty.clone(), k.ty.clone()], 0);
    let apply = |h: u32, t: &Expr| application(h, vec![k.ty.clone()], vec![t.clone()]);
    let over = |h: u32, t: &Expr| equal(apply(h, t), k.d.clone());
    let y = bound(1, k.ty.clone());
    let inner = |l: &Expr, r: &Expr| {
        all(
            k.ty.clone(),
            and(equal(l.clone(), r.clone()), equal(y.clone(), y.clone())),
        )
    };
    let (member, step) = match world.rng.below(4) {
        0 => {
            let all_f = all(k.ty.clone(), over(f, &k.x));
            let parts = vec![all_f.clone(), k.c.clone(), over(g, &k.c)];
            (all_f, node(44, parts, vec![leaf()]))
        }
        1 => {
            let not_f = not(all(k.ty.clone(), over(f, &k.x)));
            let parts = vec![not_f.clone(), k.c.clone(), over(g, &k.c)];
            (not_f, node(43, parts, vec![leaf()]))
        }
        2 => {
            let with_c = over(f, &k.c);
            let parts = vec![
                over(f, &k.x),
                k.c.clone(),
                k.d.clone(),
                with_c.clone(),
                over(g, &k.d),
            ];
            (with_c, node(46, parts, vec![leaf(), leaf()]))
        }
        _ => {
            // The inner variable and the outer one changed for each other.
            let both = all(k.ty.clone(), inner(&k.x, &y));
            let wrong = all(
                k.ty.clone(),
                and(
                    equal(k.c.clone(), k.x.clone()),
                    equal(k.c.clone(), k.c.clone()),
                ),
            );
            let parts = vec![both.clone(), k.c.clone(), wrong];
            (both, node(44, parts, vec![leaf()]))
        }
    };
    (node(37, vec![member], vec![step, leaf()]), 15)
}

/// Rule 45 with something wrong about its types.
fn odd_types(world: &mut World, draft: &mut Draft, k: Kit) -> (Script, u64) {
    let (v, w) = (type_variable(0), type_variable(1));
    let pairs = pair_type(v.clone(), w.clone());
    let x = bound(0, pairs.clone());
    let h = all_types(2, all(pairs, equal(x.clone(), x)));
    draft.hypotheses.push(h.clone());
    let (s, t) = (k.ty.clone(), set_type(k.ty.clone()));
    let instance = |a: &Expr, b: &Expr| {
        let ty = pair_type(a.clone(), b.clone());
        all(ty.clone(), equal(bound(0, ty.clone()), bound(0, ty)))
    };
    let one = vec![node(32, vec![], vec![])];
    if world.rng.chance(20) {
        return turned_variables(draft, k);
    }
    let (parts, refusal) = match world.rng.below(7) {
        0 => (vec![h, instance(&s, &t), s], 13),
        1 => (vec![h, instance(&s, &t), s.clone(), t, s], 13),
        2 => (vec![h, instance(&s, &t), s, k.c], 13),
        3 => (vec![h.child(0), instance(&s, &t), s, t], 13),
        4 => (
            vec![all_types(3, h.child(0)), instance(&s, &t), s.clone(), t, s],
            14,
        ),
        5 => (vec![h, instance(&s, &t), t, s], 15),
        _ => (vec![h, instance(&s, &w), s, w], 15),
    };
    (node(45, parts, one), refusal)
}

/// An instance with the indices of two bound variables changed for each other.
fn turned_variables(draft: &mut Draft, k: Kit) -> (Script, u64) {
    let v = type_variable(0);
    let over = |ty: &Expr, l: u32, r: u32| {
        let same = equal(bound(l, ty.clone()), bound(r, ty.clone()));
        all(ty.clone(), all(ty.clone(), same))
    };
    let h = all_types(1, over(&v, 1, 0));
    draft.hypotheses.push(h.clone());
    let parts = vec![h, over(&k.ty, 0, 1), k.ty];
    (node(45, parts, vec![node(32, vec![], vec![])]), 15)
}

/// A node for a derivation with any members and any goal.
fn odd_derivation(world: &mut World) -> (Script, u64) {
    let k = kit(world);
    let leaf = || node(66, vec![], vec![]);
    let one = || vec![leaf()];
    let two = || vec![leaf(), leaf()];
    let refl = |t: &Expr| equal(t.clone(), t.clone());
    let at_goal =
        |goal: Expr, odd: Script, refusal: u64| (node(67, vec![goal], vec![odd, leaf()]), refusal);
    let (p, q) = (k.p.clone(), k.q.clone());
    match world.rng.below(52) {
        0 => at_goal(p, node(68, vec![], vec![]), 13),
        1 => at_goal(bottom(), node(68, vec![], vec![]), 13),
        2 => at_goal(not(not(bottom())), node(68, vec![], vec![]), 13),
        3 => at_goal(implies(p, q), node(70, vec![], two()), 13),
        4 => at_goal(and(p, q), node(73, vec![], one()), 13),
        5 => at_goal(q.clone(), node(76, vec![q], two()), 13),
        6 => at_goal(not(all(k.ty, p.clone())), node(77, vec![k.c, p], one()), 13),
        7 => at_goal(q, node(80, vec![], vec![]), 13),
        8 => at_goal(p.clone(), node(69, vec![and(q, p)], two()), 13),
        9 => at_goal(p.clone(), node(71, vec![implies(p, q)], one()), 13),
        10 => at_goal(p.clone(), node(78, vec![p, k.c], one()), 13),
        11 => at_goal(p.clone(), node(79, vec![p.clone(), q, p], two()), 13),
        12 => {
            let goal = all(k.ty.clone(), p.clone());
            let pairs = pair_type(k.ty.clone(), k.ty);
            let both = pair(k.c, k.d, pairs);
            at_goal(goal, node(77, vec![both, p], one()), 13)
        }
        13 => at_goal(p, node(66, vec![], vec![]), 14),
        14 => at_goal(p, node(64, vec![], vec![]), 14),
        15 => at_goal(p.clone(), node(65, vec![p], one()), 14),
        16 => at_goal(p.clone(), node(74, vec![implies(q, p)], one()), 14),
        17 => {
            // Nothing kept, nothing there.
            let empty = node(65, vec![], vec![node(64, vec![], vec![])]);
            at_goal(p, empty, 14)
        }
        18 => {
            // The member that BR2 dropped is gone: c=c comes in, goes, and is asked for.
            let same = refl(&k.c);
            let gone = node(65, vec![], vec![node(66, vec![], vec![])]);
            let r3 = node(73, vec![], vec![gone]);
            at_goal(implies(same.clone(), same), r3, 14)
        }
        19 => {
            // BR1 with another member.
            let kept = node(64, vec![], vec![]);
            let r3 = node(73, vec![], vec![node(73, vec![], vec![kept])]);
            at_goal(implies(p.clone(), implies(q.clone(), q)), r3, 14)
        }
        20 => at_goal(p, node(80, vec![], vec![]), 15),
        21 => at_goal(p.clone(), node(71, vec![and(q, p)], one()), 15),
        22 => at_goal(p.clone(), node(72, vec![and(p, q)], one()), 15),
        23 => at_goal(p.clone(), node(69, vec![implies(p, q)], two()), 15),
        24 => {
            let open = equal(k.x.clone(), k.c);
            at_goal(p, node(67, vec![open], two()), 15)
        }
        25 => {
            let open = equal(bound(63, k.ty), k.c);
            at_goal(p, node(75, vec![open], two()), 15)
        }
        26 => {
            let open = and(p.clone(), equal(k.x.clone(), k.c));
            at_goal(p, node(71, vec![open], one()), 15)
        }
        27 => {
            // Not fresh either by half: 15 comes before 16.
            let right = world.rng.pick(&[k.x.clone(), k.c.clone()]).clone();
            let goal = all(k.ty, equal(k.x.clone(), right));
            at_goal(goal, node(77, vec![k.c, p], one()), 15)
        }
        28 => {
            let over = all(k.ty, refl(&k.x));
            at_goal(p, node(78, vec![over, k.c], one()), 15)
        }
        29 => {
            // An open term where nothing is replaced.
            let over = all(k.ty, p.clone());
            at_goal(p, node(78, vec![over, k.x], one()), 15)
        }
        30 => {
            let over = all(k.ty.clone(), equal(bound(1, k.ty), k.d));
            at_goal(p, node(78, vec![over, k.c], one()), 15)
        }
        31 => {
            // B(E) with E and F turned round.
            let body = equal(k.x.clone(), k.d.clone());
            let equation = equal(k.c.clone(), k.d.clone());
            let parts = vec![body, equation, refl(&k.d)];
            at_goal(p, node(79, parts, two()), 15)
        }
        32 => {
            let body = equal(bound(1, k.ty), k.d.clone());
            let parts = vec![body, refl(&k.c), p.clone()];
            at_goal(p, node(79, parts, two()), 15)
        }
        33 => {
            // c still in the goal.
            let goal = all(k.ty, equal(k.x.clone(), k.c.clone()));
            let instance = refl(&k.c);
            at_goal(goal, node(77, vec![k.c, instance], one()), 16)
        }
        34 => {
            // c in a member that came in on the way.
            let goal = implies(p, all(k.ty, refl(&k.x)));
            let instance = refl(&k.d);
            let odd = node(77, vec![k.d, instance], one());
            at_goal(goal, node(73, vec![], vec![odd]), 16)
        }
        35 => {
            let open = equal(k.x.clone(), k.c);
            at_goal(p.clone(), node(69, vec![implies(open, p)], two()), 15)
        }
        36 => {
            let open = equal(k.x.clone(), k.c);
            at_goal(p.clone(), node(72, vec![and(open, p)], one()), 15)
        }
        37 => {
            let open = equal(k.x.clone(), k.c);
            at_goal(not(p), node(76, vec![open], two()), 15)
        }
        38 => {
            // An open equation where nothing is replaced.
            let equation = equal(k.x.clone(), k.d);
            at_goal(p.clone(), node(79, vec![p.clone(), equation, p], two()), 15)
        }
        39 => at_goal(not(p.clone()), node(76, vec![not(p)], two()), 14),
        40 => at_goal(p.clone(), node(75, vec![p], two()), 14),
        41 => {
            // The second premise: what the first one had as its goal is no member.
            let same = refl(&k.c);
            let r10 = node(80, vec![], vec![]);
            at_goal(and(same, p), node(70, vec![], vec![r10, leaf()]), 14)
        }
        42 => {
            let part = implies(refl(&k.c), p.clone());
            let r10 = node(80, vec![], vec![]);
            at_goal(p, node(69, vec![part], vec![r10, leaf()]), 14)
        }
        43 => {
            let same = refl(&k.c);
            let r10 = node(80, vec![], vec![]);
            at_goal(p, node(67, vec![same], vec![r10, leaf()]), 14)
        }
        44 => at_goal(implies(p, q), node(73, vec![], one()), 14),
        45 => {
            let over = all(k.ty, equal(k.x.clone(), k.d));
            at_goal(p, node(78, vec![over, k.c], one()), 14)
        }
        46 => {
            let over = all(k.ty, refl(&k.x));
            at_goal(over, node(77, vec![k.c.clone(), refl(&k.c)], one()), 14)
        }
        47 => {
            let body = equal(k.x.clone(), k.d.clone());
            let parts = vec![body, equal(k.d.clone(), k.c), refl(&k.d)];
            at_goal(p, node(79, parts, two()), 14)
        }
        48..=50 => another_application(world, k),
        _ => {
            // c in the member that R5 added: the goal denied.
            let goal = all(k.ty.clone(), refl(&k.x));
            let odd = node(77, vec![k.d.clone(), refl(&k.d)], one());
            let inner = node(75, vec![goal], vec![odd, leaf()]);
            at_goal(equal(k.d, k.other.clone()), inner, 16)
        }
    }
}

/// A function that is not the one that the rule puts the term in, or fewer arguments.
fn another_application(world: &mut World, k: Kit) -> (Script, u64) {
    let leaf = || node(66, vec![], vec![]);
    let f = world.add_function(vec![k.ty.clone(), k.ty.clone()], 0);
    let g = world.add_function(vec![k.ty.clone(), k.ty.clone()], 0);
    let apply = |h: u32, list: Vec<Expr>| application(h, vec![k.ty.clone()], list);
    let over = |h: u32, list: &[&Expr]| {
        let list = list.iter().map(|&t| t.clone()).collect();
        equal(apply(h, list), k.d.clone())
    };
    let wrong = match world.rng.chance(50) {
        true => over(g, &[&k.c]),
        false => over(f, &[&k.c, &k.c]),
    };
    let all_f = all(k.ty.clone(), over(f, &[&k.x]));
    let (goal, odd) = match world.rng.below(3) {
        0 => (all_f, node(77, vec![k.c.clone(), wrong], vec![leaf()])),
        1 => (wrong, node(78, vec![all_f, k.c.clone()], vec![leaf()])),
        _ => {
            let equation = equal(k.d.clone(), k.c.clone());
            let parts = vec![over(f, &[&k.x]), equation, over(f, &[&k.d])];
            (wrong, node(79, parts, vec![leaf(), leaf()]))
        }
    };
    (node(67, vec![goal], vec![odd, leaf()]), 15)
}
