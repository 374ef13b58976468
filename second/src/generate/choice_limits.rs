//! Edge cases of the choice term, each with its answer: its words, own types and places in every file, what is unbound
//! beneath it, and the rules that look into it.

use super::choices::*;
use super::expr::*;
use super::gadgets::{Bench, Place};
use super::limits::{base, instance_cases, limit, with_records, write, Limit, PLACES};
use super::refute::{node, Script};
use super::rng::Rng;
use super::set5;
use super::world::World;
use super::writer::Tree;
use crate::kinds::*;
use crate::reader::Second;
use crate::Answer;

pub fn choice_limits() -> Vec<Limit> {
    let mut list = Vec::new();
    for (kind, place) in PLACES {
        words(&mut list, kind, place);
        references(&mut list, kind, place);
        typing_rules(&mut list, kind, place);
        nested(&mut list, kind, place);
    }
    for kind in [Second::Proof, Second::Derivation] {
        unbound_indices(&mut list, kind);
        unbound_type_variables(&mut list, kind);
        two_own_types(&mut list, kind);
    }
    freshness(&mut list);
    asked_for_a_constant(&mut list);
    types_of_places(&mut list);
    equal_choices(&mut list);
    replaced_terms(&mut list);
    instances(&mut list);
    axioms(&mut list);
    list
}

// ---------------------------------------------------------------- places before the walk

fn words(list: &mut Vec<Limit>, kind: Second, place: Place) {
    for third in [0, 1, 2, 3, 1 << 31, u32::MAX] {
        let refusal = if third == 0 { 0 } else { 4 };
        let label = format!("choice's third word {third}");
        with_records(list, kind, place, label, refusal, |b| {
            b.again_with(CHOICE, 3, third);
        });
    }
    for other in NO_KINDS {
        let label = format!("kind {other} with a choice's words");
        with_records(list, kind, place, label, 3, |b| {
            b.again_with(CHOICE, 0, other);
        });
    }
}

/// Each word as a reference that is zero, not smaller, or of each kind that it may not have.
fn references(list: &mut Vec<Limit>, kind: Second, place: Place) {
    for word in [1, 2] {
        for (what, far) in [("itself", 0), ("the next", 1), ("a far one", 1 << 31)] {
            let label = format!("choice's word {word} is {what}");
            with_records(list, kind, place, label, 5, |b| {
                let record = b.sample(CHOICE);
                b.written_again(record, word, record + far);
            });
        }
        let label = format!("choice's word {word} is 0");
        with_records(list, kind, place, label, 5, |b| {
            b.again_with(CHOICE, word, 0);
        });
        let wanted = if word == 1 { is_term } else { is_type };
        for other in (LINK..=CHOICE).filter(|&other| !wanted(other)) {
            let label = format!("choice's word {word} of kind {other}");
            with_records(list, kind, place, label, 5, |b| {
                let wrong = b.sample(other);
                b.again_with(CHOICE, word, wrong);
            });
        }
    }
}

fn typing_rules(list: &mut Vec<Limit>, kind: Second, place: Place) {
    let mut each = |what: &str, refusal: u64, count: usize, records: &dyn Fn(&mut Bench, usize)| {
        for which in 0..count {
            let label = format!("{what} {which}");
            with_records(list, kind, place, label, refusal, |b| records(b, which));
        }
    };
    let wrong = place.typing();
    each("wrong choice", wrong, WRONG_CHOICES, &wrong_choice);
    each("right choice", 0, RIGHT_CHOICES, &right_choice);
    for further in [0, 1, 62] {
        each(
            "choice in a wrong place",
            wrong,
            WRONG_PLACES,
            &|b, which| wrong_place(b, which, further),
        );
        each("choice in a right place", 0, RIGHT_PLACES, &|b, which| {
            right_place(b, which, further)
        });
    }
}

/// Choices one of the other down to a given type: n of them weigh 1 + n + n(n+1)/2. Of one more than the weight allows
/// the first that is too heavy is the last.
fn nested(list: &mut Vec<Limit>, kind: Second, place: Place) {
    let limit = place.most_weight();
    let fitting = (1..).take_while(|n| 1 + n + n * (n + 1) / 2 <= limit);
    let most = fitting.last().unwrap_or(0);
    for count in [1, 2, most, most + 1] {
        let refusal = if count > most { 7 } else { 0 };
        let label = format!("{count} choices one of the other");
        with_records(list, kind, place, label, refusal, |b| {
            let mut types = vec![b.given()];
            for place in 0..count as usize {
                types.push(b.push(SET_TYPE, types[place], 0, 0));
            }
            let (mut s, mut weight) = (b.constant(types[count as usize]), 1);
            for weight_of_own in (1..=count).rev() {
                if weight > limit {
                    break;
                }
                s = b.push(CHOICE, s, types[weight_of_own as usize - 1], 0);
                weight += 1 + weight_of_own;
            }
        });
    }
}

/// The base with a formula as its hypothesis, or as what its goal denies; 11 if it is not closed.
fn with_root(
    list: &mut Vec<Limit>,
    kind: Second,
    label: String,
    closed: bool,
    as_goal: bool,
    make: impl FnOnce(&mut Bench) -> u32,
) {
    let mut base = base();
    let mut rng = Rng::new(0);
    let f = make(&mut base.bench(&mut rng, Place::Obligation));
    match as_goal {
        true => base.goal = base.w.push(NOT, f, 0, 0),
        false => base.head = base.w.push(LINK, f, 0, base.head),
    }
    let root = base.close(kind);
    let answer = match (closed, as_goal, kind) {
        (false, _, _) => Answer::new(11, 1, 0, 0),
        // The goal is another now, and no hypothesis.
        (_, true, Second::Derivation) => Answer::new(14, 2, root as u64, 1),
        _ => Answer::accepted(1),
    };
    let what = if as_goal { "goal" } else { "hypothesis" };
    list.push(limit(
        kind,
        format!("{label} in the {what}"),
        base.files(root),
        answer,
    ));
}

/// choice(x) = choice(x) for an index of sets of the type, under so many binders of them.
fn about_index(b: &mut Bench, index: u32, binders: usize, ty: u32) -> u32 {
    let set = b.push(SET_TYPE, ty, 0, 0);
    let same = chosen_is_itself(b, index, set, ty);
    (0..binders).fold(same, |f, _| b.push(ALL, set, f, 0))
}

fn unbound_indices(list: &mut Vec<Limit>, kind: Second) {
    for (index, binders) in [(0, 0), (0, 1), (1, 1), (1, 2), (63, 63), (63, 64)] {
        for as_goal in [false, true] {
            let closed = (index as usize) < binders;
            let label = format!("choice of index {index} under {binders} binders");
            with_root(list, kind, label, closed, as_goal, |b| {
                let ty = b.given();
                about_index(b, index, binders, ty)
            });
        }
    }
}

/// Type variables in s and own type, below, at and past the count of kind 22; as the goal it has none.
fn unbound_type_variables(list: &mut Vec<Limit>, kind: Second) {
    for used in 0..4 {
        for count in 0..=4 {
            let label = format!("choice over variable {used} for a count of {count}");
            with_root(list, kind, label, used < count, false, |b| {
                let v = b.push(TYPE_VARIABLE, used, 0, 0);
                let f = about_index(b, 0, 1, v);
                match count {
                    0 => f,
                    _ => b.push(ALL_TYPES, count, f, 0),
                }
            });
        }
        let label = format!("choice over variable {used}");
        with_root(list, kind, label, false, true, |b| {
            let v = b.push(TYPE_VARIABLE, used, 0, 0);
            about_index(b, 0, 1, v)
        });
    }
}

/// choice(s) twice with two own types, one of them wrong: equal in a derivation, ill typed in a proof.
fn two_own_types(list: &mut Vec<Limit>, kind: Second) {
    for other_set in [false, true] {
        let mut base = base();
        let mut rng = Rng::new(0);
        let mut b = base.bench(&mut rng, Place::Obligation);
        let ty = b.given();
        let set = b.push(SET_TYPE, ty, 0, 0);
        let [s, t] = [0; 2].map(|_| b.constant(set));
        base.w.end_obligation(false);
        let right = base.w.push(CHOICE, s, ty, 0);
        let second_set = if other_set { t } else { s };
        let wrong = base.w.push(CHOICE, second_set, set, 0);
        let equation = base.w.push(EQUAL, right, wrong, 0);
        let parts = base.w.push(LINK, equation, 0, 0);
        let r10 = base.w.push(80, 0, 0, 0);
        let br3 = base.w.push(66, 0, 0, 0);
        let premises = base.w.chain(&[r10, br3]);
        let root = base.w.push(67, parts, premises, 0);
        let answer = match (kind, other_set) {
            (Second::Proof, _) => Answer::new(10, 2, wrong as u64, 0),
            (_, true) => Answer::new(15, 2, r10 as u64, 2),
            (_, false) => Answer::accepted(3),
        };
        let label = format!("two own types, two sets: {other_set}");
        list.push(limit(kind, label, base.files(root), answer));
    }
}

// ---------------------------------------------------------------- walks

/// Symbols for the walks: sets s and other of the given type, a set t of sets, and a function.
struct Kit {
    world: World,
    ty: Expr,
    sets: Expr,
    c: Expr,
    s: Expr,
    other: Expr,
    t: Expr,
    f: u32,
}

fn kit() -> Kit {
    let mut world = World::bare();
    let ty = given(0);
    let sets = set_type(ty.clone());
    let mut new = |ty: &Expr| constant(world.new_constant(ty.clone()));
    let (c, s, other) = (new(&ty), new(&sets), new(&sets));
    let t = new(&set_type(sets.clone()));
    let f = world.add_function(vec![ty.clone(), ty.clone()], 0);
    Kit {
        world,
        ty,
        sets,
        c,
        s,
        other,
        t,
        f,
    }
}

impl Kit {
    fn of(&self, set: &Expr) -> Expr {
        choice(set.clone(), self.ty.clone())
    }

    /// A set that is chosen itself.
    fn of_t(&self) -> Expr {
        choice(self.t.clone(), self.sets.clone())
    }

    fn is_c(&self, term: &Expr) -> Expr {
        equal(term.clone(), self.c.clone())
    }

    /// ∀y·choice(y) = choice(y).
    fn every(&self) -> Expr {
        let y = bound(0, self.sets.clone());
        all(self.sets.clone(), refl(&self.of(&y)))
    }

    /// Where s is in a formula beneath a choice, and where it is not.
    fn members(&self) -> Vec<(Expr, bool)> {
        let (of_s, of_other) = (self.of(&self.s), self.of(&self.other));
        let x = bound(0, self.ty.clone());
        let power = powerset(self.s.clone(), set_type(self.sets.clone()));
        let of_power = choice(power, self.sets.clone());
        let applied = application(self.f, vec![self.ty.clone()], vec![of_s.clone()]);
        let pairs = pair_type(self.ty.clone(), self.ty.clone());
        vec![
            (self.is_c(&of_s), true),
            (self.is_c(&of_other), false),
            (self.every(), false),
            (all(self.ty.clone(), equal(x, of_s.clone())), true),
            (self.is_c(&self.of(&of_power)), true),
            (self.is_c(&self.of(&self.of_t())), false),
            (self.is_c(&applied), true),
            (refl(&pair(self.c.clone(), of_s.clone(), pairs)), true),
            (all_types(1, self.is_c(&of_s)), true),
            (all_types(4, self.is_c(&of_other)), false),
        ]
    }
}

/// A proof or derivation by a script whose root is refused with the number, or accepted for 0.
fn walk(
    list: &mut Vec<Limit>,
    world: &World,
    label: String,
    files: (&[Expr], &Expr),
    script: Script,
    refusal: u64,
) {
    let kind = match script.kind {
        32..=46 => Second::Proof,
        _ => Second::Derivation,
    };
    let untyped = kind == Second::Derivation;
    let script = if untyped { script.plain() } else { script };
    let mut tree = Tree::default();
    let root = tree.add(0, vec![]);
    script.plant(&mut tree, root);
    let (hypotheses, goal) = files;
    let (files, records) = write(world, hypotheses, &not(goal.clone()), &tree, untyped);
    let answer = match refusal {
        0 => Answer::accepted(tree.nodes.len() as u64),
        _ => Answer::new(refusal, 2, records[root] as u64, 1),
    };
    list.push(limit(kind, label, files, answer));
}

/// Rules 43 and R7 with a constant that is in a member's or the goal's choice, or in none.
fn freshness(list: &mut Vec<Limit>) {
    let k = kit();
    let instance = refl(&k.of(&k.s));
    let r10 = || node(80, &[], vec![]);
    for (number, (member, has_s)) in k.members().into_iter().enumerate() {
        let refusal = if has_s { 16 } else { 0 };
        let close = node(35, &[&not(instance.clone())], vec![]);
        let proof = node(43, &[&not(k.every()), &k.s, &instance], vec![close]);
        let derivation = node(77, &[&k.s, &instance], vec![r10()]);
        let files = (&[member][..], &k.every());
        for script in [proof, derivation] {
            let label = format!("constant in choices of member {number}: {has_s}");
            walk(list, &k.world, label, files, script, refusal);
        }
    }
    // In the quantified formula itself.
    let y = bound(0, k.sets.clone());
    let goal = all(k.sets.clone(), equal(k.of(&y), k.of(&k.s)));
    let leaf = node(32, &[], vec![]);
    let proof = node(43, &[&not(goal.clone()), &k.s, &instance], vec![leaf]);
    let derivation = node(77, &[&k.s, &instance], vec![r10()]);
    for script in [proof, derivation] {
        let label = String::from("constant in a choice of the goal");
        walk(list, &k.world, label, (&[], &goal), script, 16);
    }
}

/// Rules 43 and R7 with a choice in the constant's place.
fn asked_for_a_constant(list: &mut Vec<Limit>) {
    let k = kit();
    let of_of_t = k.of(&k.of_t());
    for (number, term) in [k.of(&k.s), of_of_t, k.c.clone()].iter().enumerate() {
        let x = bound(0, k.ty.clone());
        let goal = all(k.ty.clone(), refl(&x));
        let instance = refl(term);
        let refusal = if term.is(CONSTANT) { 0 } else { 13 };
        let close = node(35, &[&not(instance.clone())], vec![]);
        let proof = node(43, &[&not(goal.clone()), term, &instance], vec![close]);
        let derivation = node(77, &[term, &instance], vec![node(80, &[], vec![])]);
        for script in [proof, derivation] {
            let label = format!("term {number} for a constant");
            walk(list, &k.world, label, (&[], &goal), script, refusal);
        }
    }
}

/// Rules 44 and R8 with a choice of the quantifier's type and of others; types don't count in derivations.
fn types_of_places(list: &mut Vec<Limit>) {
    let k = kit();
    let places = [k.ty.clone(), k.sets.clone(), set_type(k.sets.clone())];
    let terms = [(k.of(&k.s), 0), (k.of(&k.of_t()), 0), (k.of_t(), 1)];
    for (place, ty) in places.iter().enumerate() {
        for (term, of_place) in &terms {
            let over = all(ty.clone(), bottom());
            let refusal = if *of_place == place { 0 } else { 15 };
            let proof = node(44, &[&over, term, &bottom()], vec![node(32, &[], vec![])]);
            let derivation = node(78, &[&over, term], vec![node(66, &[], vec![])]);
            let label = format!("choice at a place of type {place}");
            let files = (&[over][..], &bottom());
            walk(list, &k.world, label.clone(), files, proof, refusal);
            walk(list, &k.world, label, files, derivation, 0);
        }
    }
}

/// Rules 35 and R10 on two terms: right if they are equal by structure.
fn equal_choices(list: &mut Vec<Limit>) {
    let k = kit();
    let terms = [k.of(&k.s), k.of(&k.other), k.of(&k.of_t()), k.c.clone()];
    for (i, left) in terms.iter().enumerate() {
        for (j, right) in terms.iter().enumerate() {
            let goal = equal(left.clone(), right.clone());
            let refusal = if i == j { 0 } else { 15 };
            let proof = node(35, &[&not(goal.clone())], vec![]);
            for script in [proof, node(80, &[], vec![])] {
                let label = format!("terms {i} and {j} as equal");
                walk(list, &k.world, label, (&[], &goal), script, refusal);
            }
        }
    }
}

/// Rules 46 and R9: choices replaced, sets replaced beneath a choice, and places left out.
fn replaced_terms(list: &mut Vec<Limit>) {
    let k = kit();
    let (x, y) = (bound(0, k.ty.clone()), bound(0, k.sets.clone()));
    let (of_s, of_other) = (k.of(&k.s), k.of(&k.other));
    let (about_x, about_y) = (k.is_c(&x), k.is_c(&k.of(&y)));
    let open = k.is_c(&k.of(&bound(1, k.sets.clone())));
    let under = all(k.sets.clone(), k.is_c(&k.of(&bound(1, k.sets.clone()))));
    let under_s = all(k.sets.clone(), k.is_c(&of_s));
    let under_other = all(k.sets.clone(), k.is_c(&of_other));
    let (p, q) = (k.is_c(&of_s), k.is_c(&of_other));
    // B, t and u, B(t), B(u), and whether that is right.
    let cases = [
        (&about_x, &of_s, &of_other, &p, &q, true),
        (&about_x, &of_s, &of_other, &p, &p, false),
        (&about_y, &k.s, &k.other, &p, &q, true),
        (&about_y, &k.s, &k.other, &p, &p, false),
        (&about_y, &k.s, &k.other, &q, &q, false),
        (&under, &k.s, &k.other, &under_s, &under_other, true),
        (&under, &k.s, &k.other, &under_s, &under_s, false),
        (&open, &k.s, &k.s, &p, &p, false),
        (&p, &of_s, &of_other, &p, &p, true),
    ];
    for (number, (body, t, u, with_t, with_u, right)) in cases.into_iter().enumerate() {
        let refusal = if right { 0 } else { 15 };
        let equation = equal(t.clone(), u.clone());
        let closed = || node(34, &[&equation], vec![]);
        let denied = || node(34, &[with_u], vec![]);
        let proof = node(46, &[body, t, u, with_t, with_u], vec![closed(), denied()]);
        let br3 = || node(66, &[], vec![]);
        let derivation = node(79, &[body, &equation, with_t], vec![br3(), br3()]);
        let files = (&[with_t.clone(), equation.clone()][..], with_u);
        for script in [proof, derivation] {
            let label = format!("replaced by or beneath choices {number}");
            walk(list, &k.world, label, files, script, refusal);
        }
    }
}

/// Rules 43, 44, R7 and R8 where the variable stands beneath choices, under binders and in heavy formulas.
fn instances(list: &mut Vec<Limit>) {
    let k = kit();
    let same = |set: &Expr| refl(&k.of(set));
    for inner in [0, 1, 2, 62, 63, 64] {
        let index = inner.min(63);
        let wrap = |atom: Expr| (0..inner).fold(atom, |f, _| all(k.sets.clone(), f));
        let x = bound(index, k.sets.clone());
        let (body, put) = (wrap(same(&x)), wrap(same(&k.s)));
        let half = wrap(equal(k.of(&k.s), k.of(&x)));
        let over = all(k.sets.clone(), body.clone());
        let reaches = inner <= 63;
        let label = format!("choice of index {index} under {inner} further binders");
        for (instance, right) in [(&put, reaches), (&body, !reaches), (&half, false)] {
            instance_cases(list, &k.world, &label, &over, (&k.s, instance), right);
        }
    }
    let double = |atom: Expr| (0..7).fold(atom, |f, _| and(f.clone(), f));
    let over = all(k.sets.clone(), double(same(&bound(0, k.sets.clone()))));
    let put = double(same(&k.s));
    let unlike = double(equal(k.of(&k.s), k.of(&k.other)));
    let wrong = and(put.child(0), unlike.child(0));
    for (instance, right) in [(&put, true), (&wrong, false)] {
        instance_cases(
            list,
            &k.world,
            "heavy with choices",
            &over,
            (&k.s, instance),
            right,
        );
    }
}

/// SET5 used in proofs and derivations, each closed by what it gives.
fn axioms(list: &mut Vec<Limit>) {
    for seed in 0..12 {
        let mut world = World::new(Rng::new(seed));
        let (hypotheses, script) = set5::core(&mut world);
        let label = format!("SET5 {seed}");
        let files = (&hypotheses[..], &top());
        walk(list, &world, label.clone(), files, script, 0);
        let (hypotheses, goal, script) = set5::derivable(&mut world);
        walk(list, &world, label, (&hypotheses, &goal), script, 0);
    }
}
