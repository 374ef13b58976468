//! The edges, each limit at its edge and one past it, with the answers that the limits give.

use super::choice_limits::choice_limits;
use super::expr::*;
use super::gadgets::{weigh_one, Bench, Place, WEIGHT_SORTS};
use super::proof_limits::proof_limits;
use super::rng::Rng;
use super::root_damage::{odd_hypothesis, ODD_HYPOTHESES};
use super::spelling::{self, accent_of, accents};
use super::world::World;
use super::writer::{Tree, Writer};
use super::Case;
use crate::kinds::*;
use crate::reader::Second;
use crate::Answer;

/// An edge case: the label starts with `proof` or `derivation`.
pub struct Limit {
    pub kind: Second,
    pub case: Case,
    pub answer: Answer,
}

/// The edge cases alone.
pub fn limit_cases() -> Vec<Case> {
    limits().into_iter().map(|limit| limit.case).collect()
}

/// The edge cases with their answers.
pub fn limits() -> Vec<Limit> {
    let mut list = Vec::new();
    for (kind, place) in PLACES {
        weights(&mut list, kind, place);
        ranges(&mut list, kind, place);
        chains(&mut list, kind, place);
        names(&mut list, kind, place);
        marks(&mut list, kind, place);
        spellings(&mut list, kind, place);
    }
    for kind in [Second::Proof, Second::Derivation] {
        lengths(&mut list, kind);
        hypotheses(&mut list, kind);
    }
    proof_members(&mut list);
    type_counts(&mut list);
    list.extend(proof_limits());
    list.extend(choice_limits());
    derivation_members(&mut list);
    derivation_depth(&mut list);
    deep_binders(&mut list);
    heavy_instances(&mut list);
    list
}

pub(super) const PLACES: [(Second, Place); 4] = [
    (Second::Proof, Place::Obligation),
    (Second::Derivation, Place::Obligation),
    (Second::Proof, Place::Proof),
    (Second::Derivation, Place::Derivation),
];

fn name_of(kind: Second) -> &'static str {
    match kind {
        Second::Proof => "proof",
        Second::Derivation => "derivation",
    }
}

pub(super) fn limit(
    kind: Second,
    label: String,
    files: (Vec<u8>, Vec<u8>),
    answer: Answer,
) -> Limit {
    Limit {
        kind,
        case: Case {
            label: format!("{} {label}", name_of(kind)),
            obligation: files.0,
            second: files.1,
        },
        answer,
    }
}

// ---------------------------------------------------------------- places before the walk

/// The smallest accepted case: ⊥ is hypothesis and goal.
pub(super) struct Base {
    pub w: Writer,
    pub head: u32,
    pub goal: u32,
}

pub(super) fn base() -> Base {
    let mut w = Writer::new(Rng::new(0));
    let bottom = w.push(BOTTOM, 0, 0, 0);
    let goal = w.push(NOT, bottom, 0, 0);
    let head = w.push(LINK, bottom, 0, 0);
    Base { w, head, goal }
}

impl Base {
    pub fn bench<'a>(&'a mut self, rng: &'a mut Rng, place: Place) -> Bench<'a> {
        Bench {
            w: &mut self.w,
            rng,
            place,
        }
    }

    /// Ends the obligation and adds the closing node as the root.
    pub fn close(&mut self, kind: Second) -> u32 {
        if self.w.m.is_none() {
            self.w.end_obligation(false);
        }
        match kind {
            Second::Proof => self.w.push(32, 0, 0, 0),
            Second::Derivation => self.w.push(66, 0, 0, 0),
        }
    }

    pub fn files(&self, root: u32) -> (Vec<u8>, Vec<u8>) {
        self.w.files(self.head, self.goal, root)
    }
}

/// The base with records of no other use; the last of them is the one that counts.
pub(super) fn with_records(
    list: &mut Vec<Limit>,
    kind: Second,
    place: Place,
    label: String,
    refusal: u64,
    records: impl FnOnce(&mut Bench),
) {
    let mut base = base();
    let mut rng = Rng::new(0);
    let (root, last);
    if place == Place::Obligation {
        records(&mut base.bench(&mut rng, place));
        last = base.w.count();
        root = base.close(kind);
    } else {
        root = base.close(kind);
        records(&mut base.bench(&mut rng, place));
        last = base.w.count();
    }
    let file = if place == Place::Obligation { 1 } else { 2 };
    let answer = match refusal {
        0 => Answer::accepted(1),
        _ => Answer::new(refusal, file, last as u64, 0),
    };
    let label = format!("{label} in {place:?}");
    list.push(limit(kind, label, base.files(root), answer));
}

fn weights(list: &mut Vec<Limit>, kind: Second, place: Place) {
    let most = place.most_weight();
    for sort in 0..WEIGHT_SORTS {
        for weight in [most - 1, most, most + 1] {
            let refusal = if weight > most { 7 } else { 0 };
            let label = format!("weight {weight} of sort {sort}");
            with_records(list, kind, place, label, refusal, |b| {
                weigh_one(b, sort, weight);
            });
        }
    }
    if place == Place::Derivation {
        with_records(list, kind, place, "weight 4097".into(), 0, |b| {
            b.formula_of_weight(4_097);
        });
    }
}

fn ranges(list: &mut Vec<Limit>, kind: Second, place: Place) {
    for index in [0, 62, 63, 64, 65, u32::MAX] {
        let refusal = if index > 63 { 4 } else { 0 };
        with_records(list, kind, place, format!("index {index}"), refusal, |b| {
            let ty = b.given();
            b.push(BOUND, index, ty, 0);
        });
    }
    for number in [0, 3, 4, 5, 256] {
        let refusal = if number > 3 { 4 } else { 0 };
        let label = format!("type variable {number}");
        with_records(list, kind, place, label, refusal, |b| {
            b.push(TYPE_VARIABLE, number, 0, 0);
        });
    }
    for count in [0, 4, 5, 6] {
        let refusal = if count > 4 { 4 } else { 0 };
        let label = format!("type parameters {count}");
        with_records(list, kind, place, label, refusal, |b| {
            let ty = b.given();
            b.function(&[ty], count);
        });
    }
    for count in [0, 1, 4, 5] {
        let refusal = if (1..=4).contains(&count) { 0 } else { 4 };
        let label = format!("count of kind 22 {count}");
        with_records(list, kind, place, label, refusal, |b| {
            let f = b.bottom();
            b.push(ALL_TYPES, count, f, 0);
        });
    }
    // Signatures may use the variables below their count only; constants none.
    for used in 0..4 {
        for count in 0..=4 {
            let wrong = used >= count && place.is_typed();
            let label = format!("variable {used} in a signature of {count}");
            with_records(list, kind, place, label, if wrong { 10 } else { 0 }, |b| {
                let v = b.push(TYPE_VARIABLE, used, 0, 0);
                b.function(&[v], count);
            });
        }
    }
}

fn chains(list: &mut Vec<Limit>, kind: Second, place: Place) {
    for types in [1, 2, 5, 6, 7] {
        let refusal = if types > 5 { 6 } else { 0 };
        let label = format!("function of {types} types");
        with_records(list, kind, place, label, refusal, |b| {
            let ty = b.given();
            b.function(&vec![ty; types], 0);
        });
    }
    for (types, arguments) in [
        (1, 0),
        (1, 4),
        (5, 0),
        (5, 4),
        (6, 0),
        (1, 5),
        (6, 5),
        (9, 9),
    ] {
        let refusal = if types > 5 || arguments > 4 { 6 } else { 0 };
        let label = format!("application to {types} types and {arguments} arguments");
        with_records(list, kind, place, label, refusal, |b| {
            let ty = b.given();
            let c = b.constant(ty);
            let signature = vec![ty; 1 + arguments.min(4)];
            let function = b.function(&signature, (types as u32 - 1).min(4));
            b.application(function, &vec![ty; types], &vec![c; arguments]);
        });
    }
}

/// A given type of each name in turn; the last of them is the one that counts.
fn given_types(
    list: &mut Vec<Limit>,
    kind: Second,
    place: Place,
    label: String,
    refusal: u64,
    names: &[&[u8]],
) {
    with_records(list, kind, place, label, refusal, |b| {
        for bytes in names {
            let name = b.w.name(bytes);
            b.push(GIVEN, name, 0, 0);
        }
    });
}

/// Whether a name may end in the byte alone; a zero byte is past its end.
fn may_end(byte: u8) -> bool {
    byte.is_ascii_alphanumeric() || byte == b'_' || byte == 0
}

fn names(list: &mut Vec<Limit>, kind: Second, place: Place) {
    for bytes in [1, 8, 9, 31, 32, 33, 40, 41] {
        let refusal = if bytes > 32 { 6 } else { 0 };
        let label = format!("name of {bytes} bytes");
        given_types(list, kind, place, label, refusal, &[&vec![b'n'; bytes]]);
    }
    for byte in 0..=255u8 {
        let letter = byte.is_ascii_alphabetic();
        let pair = (0x80..=0xBF).contains(&byte) && byte != 0x97 && byte != 0xB7;
        let sorts: [(&str, Vec<u8>, bool); 3] = [
            ("first", vec![byte, b'a'], letter),
            ("last", vec![b'a', byte], may_end(byte)),
            ("after C3", vec![0xC3, byte], pair),
        ];
        for (sort, bytes, right) in sorts {
            let label = format!("byte {byte:02x} {sort}");
            let refusal = if right { 0 } else { 8 };
            given_types(list, kind, place, label, refusal, &[&bytes]);
        }
    }
}

/// Marks after every letter, bytes around a mark, and marks in every place of the longest name.
fn marks(list: &mut Vec<Limit>, kind: Second, place: Place) {
    let mut named = |label: String, refusal: u64, name: &[u8]| {
        given_types(list, kind, place, label, refusal, &[name]);
    };
    for letter in ('A'..='Z').chain('a'..='z') {
        for mark in spelling::marks() {
            let refusal = match accent_of(letter, mark) {
                Some(_) => 0,
                None => 8,
            };
            let name = format!("{letter}{mark}");
            named(format!("{letter} with {mark:?}"), refusal, name.as_bytes());
        }
    }
    for byte in 0..=255u8 {
        let acute = accent_of(char::from(byte), '\u{301}').is_some();
        let follows_e = [0x80, 0x81, 0x82, 0x88].contains(&byte);
        let sorts: [(&str, Vec<u8>, bool); 3] = [
            ("before a mark", vec![b'a', byte, 0xCC, 0x81], acute),
            ("after CC", vec![b'e', 0xCC, byte], follows_e),
            ("after a mark", vec![b'e', 0xCC, 0x81, byte], may_end(byte)),
        ];
        for (sort, bytes, right) in sorts {
            let label = format!("byte {byte:02x} {sort}");
            named(label, if right { 0 } else { 8 }, &bytes);
        }
    }
    for second in 0x80..=0xBF {
        let name = [0xC3, second, 0xCC, 0x81];
        named(format!("mark after C3 {second:02x}"), 8, &name);
    }
    for (marked, plain) in [(10, 0), (10, 1), (10, 2), (10, 3), (11, 0)] {
        let mut name = "e\u{301}".repeat(marked);
        name.push_str(&"n".repeat(plain));
        let refusal = if name.len() > 32 { 6 } else { 0 };
        let label = format!("name of {marked} marked and {plain} plain letters");
        named(label, refusal, name.as_bytes());
    }
    for at in 0..=29 {
        let mut name = [b'n'; 32];
        name[at..at + 3].copy_from_slice("e\u{301}".as_bytes());
        named(format!("marked letter at {at}"), 0, &name);
        name[at + 2] = 0x84;
        named(format!("wrong mark at {at}"), 8, &name);
        // The name ends within the mark.
        let label = format!("mark cut off at {at}");
        named(label, 8, &name[..at + 2]);
    }
}

/// Each accent in both spellings: one name in one name space, two names in two.
fn spellings(list: &mut Vec<Limit>, kind: Second, place: Place) {
    for accent in accents() {
        let letter = accent.composed;
        let (marked, composed) = (accent.marked(), accent.composed());
        for (order, first, again) in [
            ("marked first", &marked, &composed),
            ("composed first", &composed, &marked),
        ] {
            let names = [first.as_bytes(), again.as_bytes()];
            let label = format!("two given types {letter}, {order}");
            given_types(list, kind, place, label, 9, &names);
            let label = format!("given type and constant {letter}, {order}");
            with_records(list, kind, place, label, 0, |b| {
                let name = b.w.name(names[0]);
                let ty = b.push(GIVEN, name, 0, 0);
                let name = b.w.name(names[1]);
                b.push(CONSTANT, ty, name, 0);
            });
        }
        let plain = String::from(accent.letter);
        let label = format!("given types {plain} and {letter}");
        let names = [plain.as_bytes(), marked.as_bytes()];
        given_types(list, kind, place, label, 0, &names);
    }
}

/// Files of so many records, header counted.
fn lengths(list: &mut Vec<Limit>, kind: Second) {
    let most = super::most_records(kind);
    for records in [1_023, 1_024, 1_025] {
        let mut base = base();
        while base.w.records.len() + 1 < records {
            base.w.push(TOP, 0, 0, 0);
        }
        let root = base.close(kind);
        let answer = match records > 1_024 {
            true => Answer::new(1, 1, 0, 0),
            false => Answer::accepted(1),
        };
        let label = format!("obligation of {records} records");
        list.push(limit(kind, label, base.files(root), answer));
    }
    for records in [most - 1, most, most + 1] {
        let mut base = base();
        let root = base.close(kind);
        let m = base.w.m.unwrap_or(0) as usize;
        while base.w.records.len() - m + 1 < records {
            base.w.push(TOP, 0, 0, 0);
        }
        let answer = match records > most {
            true => Answer::new(1, 2, 0, 0),
            false => Answer::accepted(1),
        };
        let label = format!("second file of {records} records");
        list.push(limit(kind, label, base.files(root), answer));
    }
    for bytes in [0, 1, 15, 16, 17, 31, 32, 33] {
        let mut base = base();
        let root = base.close(kind);
        let (obligation, mut second) = base.files(root);
        second.resize(bytes, 0);
        let answer = match bytes {
            32 => Answer::accepted(1),
            16 => Answer::new(2, 2, 0, 0),
            _ => Answer::new(1, 2, 0, 0),
        };
        let label = format!("second file of {bytes} bytes");
        list.push(limit(kind, label, (obligation, second), answer));
    }
    for bytes in [0, 1, 15, 16, 17, 48, 63, 64, 65] {
        let mut base = base();
        let root = base.close(kind);
        let (mut obligation, second) = base.files(root);
        obligation.resize(bytes, 0);
        let answer = match bytes {
            64 => Answer::accepted(1),
            16 | 48 => Answer::new(2, 1, 0, 0),
            _ => Answer::new(1, 1, 0, 0),
        };
        let label = format!("obligation of {bytes} bytes");
        list.push(limit(kind, label, (obligation, second), answer));
    }
}

fn hypotheses(list: &mut Vec<Limit>, kind: Second) {
    for count in [0, 1, 255, 256, 257, 300] {
        let mut base = base();
        let items = vec![1; count];
        base.head = 0;
        for item in items {
            base.head = base.w.push(LINK, item, 0, base.head);
        }
        let root = base.close(kind);
        let answer = match count {
            0 => Answer::new(14, 2, root as u64, 1),
            257.. => Answer::new(11, 1, 0, 0),
            _ => Answer::accepted(1),
        };
        let label = format!("{count} hypotheses");
        list.push(limit(kind, label, base.files(root), answer));
    }
    // Type variables below, at and past the count of kind 22; index 63 under 63 and 64 binders.
    for used in 0..4 {
        for count in 0..=4 {
            let mut base = base();
            let v = base.w.push(TYPE_VARIABLE, used, 0, 0);
            let mut h = base.w.push(ALL, v, 1, 0);
            if count > 0 {
                h = base.w.push(ALL_TYPES, count, h, 0);
            }
            base.head = base.w.push(LINK, h, 0, base.head);
            let root = base.close(kind);
            let answer = match used >= count {
                true => Answer::new(11, 1, 0, 0),
                false => Answer::accepted(1),
            };
            let label = format!("variable {used} in a hypothesis of count {count}");
            list.push(limit(kind, label, base.files(root), answer));
        }
    }
    for (index, binders) in [
        (0, 0),
        (0, 1),
        (1, 1),
        (1, 2),
        (63, 63),
        (63, 64),
        (63, 200),
    ] {
        for as_goal in [false, true] {
            let mut base = base();
            let mut rng = Rng::new(0);
            let ty = base.bench(&mut rng, Place::Obligation).given();
            let x = base.w.push(BOUND, index, ty, 0);
            let mut f = base.w.push(EQUAL, x, x, 0);
            for _ in 0..binders {
                f = base.w.push(ALL, ty, f, 0);
            }
            match as_goal {
                true => base.goal = base.w.push(NOT, f, 0, 0),
                false => base.head = base.w.push(LINK, f, 0, base.head),
            }
            let root = base.close(kind);
            let answer = match (index >= binders, as_goal, kind) {
                (true, _, _) => Answer::new(11, 1, 0, 0),
                // The goal is another now, and no hypothesis.
                (_, true, Second::Derivation) => Answer::new(14, 2, root as u64, 1),
                _ => Answer::accepted(1),
            };
            let what = if as_goal { "goal" } else { "hypothesis" };
            let label = format!("index {index} under {binders} binders in the {what}");
            list.push(limit(kind, label, base.files(root), answer));
        }
    }
    for which in 0..ODD_HYPOTHESES {
        let mut base = base();
        let mut rng = Rng::new(0);
        let mut bench = base.bench(&mut rng, Place::Obligation);
        let (item, refusal) = odd_hypothesis(&mut bench, which);
        base.head = base.w.push(LINK, item, 0, base.head);
        let root = base.close(kind);
        let answer = match refusal {
            0 => Answer::accepted(1),
            _ => Answer::new(11, 1, 0, 0),
        };
        let label = format!("odd hypothesis {which}");
        list.push(limit(kind, label, base.files(root), answer));
    }
}

// ---------------------------------------------------------------- walks

/// Writes hypotheses, ¬goal and tree; gives back the files and each node's record.
pub(super) fn write(
    world: &World,
    hypotheses: &[Expr],
    negated_goal: &Expr,
    tree: &Tree,
    untyped: bool,
) -> ((Vec<u8>, Vec<u8>), Vec<u32>) {
    let mut w = Writer::new(Rng::new(0));
    let items: Vec<u32> = hypotheses.iter().map(|h| w.write(world, h)).collect();
    let goal = w.write(world, negated_goal);
    let head = w.chain(&items);
    w.end_obligation(untyped);
    let at = w.tree(world, tree);
    (w.files(head, goal, at[0]), at)
}

/// Adds a node with one premise to be, which is given back.
pub(super) fn extend(tree: &mut Tree, at: usize, kind: u32, parts: Vec<Expr>) -> usize {
    tree.nodes[at].kind = kind;
    tree.nodes[at].parts = parts;
    let next = tree.add(32, vec![]);
    tree.nodes[at].premises.push(next);
    next
}

/// Each proof rule with premises, from a sequent that it takes to 1,024 members or one more.
fn proof_members(list: &mut Vec<Limit>) {
    let mut world = World::bare();
    let ty = given(0);
    let c = constant(world.new_constant(ty.clone()));
    let d = constant(world.new_constant(ty.clone()));
    let (f, g) = (bottom(), top());
    let both = and(f.clone(), g.clone());
    let twice = not(not(f.clone()));
    let not_implies = not(implies(f.clone(), g.clone()));
    let arrow = implies(f.clone(), g.clone());
    let not_both = not(both.clone());
    let over = all(ty.clone(), f.clone());
    let not_over = not(over.clone());
    let h = all_types(1, f.clone());
    let hypotheses = [
        &vec![f.clone(); 200][..],
        &[
            both.clone(),
            twice.clone(),
            not_implies.clone(),
            arrow.clone(),
            not_both.clone(),
            over.clone(),
            not_over.clone(),
            h.clone(),
        ],
    ]
    .concat();
    let rules: Vec<(u32, Vec<Expr>, usize, usize)> = vec![
        (37, vec![g.clone()], 1, 2),
        (38, vec![twice.clone()], 1, 1),
        (39, vec![both.clone()], 2, 1),
        (40, vec![not_implies], 2, 1),
        (41, vec![arrow], 1, 2),
        (42, vec![not_both], 1, 2),
        (43, vec![not_over, c.clone(), f.clone()], 1, 1),
        (44, vec![over, c.clone(), f.clone()], 1, 1),
        (45, vec![h, f.clone(), ty], 1, 1),
        (46, vec![f.clone(), c, d, f.clone(), f.clone()], 1, 2),
    ];
    let start = hypotheses.len() + 1;
    for (kind, parts, adds, premises) in rules {
        for after in [1_023, 1_024, 1_025, 1_026] {
            let before = after - adds;
            if before > 1_024 {
                continue;
            }
            let mut tree = Tree::default();
            let mut at = tree.add(32, vec![]);
            let mut members = start;
            while members < before {
                let two = before - members >= 2;
                let (kind, part) = match two {
                    true => (39, both.clone()),
                    false => (38, twice.clone()),
                };
                at = extend(&mut tree, at, kind, vec![part]);
                members += if two { 2 } else { 1 };
            }
            let nodes = tree.nodes.len() as u64;
            let crossing = at;
            extend(&mut tree, at, kind, parts.clone());
            if premises == 2 {
                let side = tree.add(32, vec![]);
                tree.nodes[crossing].premises.push(side);
            }
            let (files, records) = write(&world, &hypotheses, &not(g.clone()), &tree, false);
            let answer = match after > 1_024 {
                true => Answer::new(17, 2, records[crossing] as u64, nodes),
                false => Answer::accepted(tree.nodes.len() as u64),
            };
            let label = format!("rule {kind} to {after} members");
            list.push(limit(Second::Proof, label, files, answer));
        }
    }
}

/// Rule 45 with each number of types for each count.
fn type_counts(list: &mut Vec<Limit>) {
    let world = World::bare();
    for count in 1..=4u32 {
        for types in 0..=6usize {
            let v = type_variable(count - 1);
            let x = bound(0, v.clone());
            let body = all(v, equal(x.clone(), x));
            let h = all_types(count, body.clone());
            let put = vec![given(0); 4];
            let mut parts = vec![h.clone(), body.put_types(&put)];
            parts.extend(vec![given(0); types]);
            let mut tree = Tree::default();
            let root = tree.add(32, vec![]);
            extend(&mut tree, root, 45, parts);
            let (files, records) = write(&world, &[bottom(), h], &not(top()), &tree, false);
            let answer = match types == count as usize {
                true => Answer::accepted(2),
                false => Answer::new(13, 2, records[0] as u64, 1),
            };
            let label = format!("{types} types for a kind 22 of count {count}");
            list.push(limit(Second::Proof, label, files, answer));
        }
    }
}

/// Each derivation rule with premises, from a sequent that it takes to 2,048 members or one more.
fn derivation_members(list: &mut Vec<Limit>) {
    let mut world = World::bare();
    let c = constant(world.new_constant(given(0)));
    let f = bottom();
    let refl = equal(c.clone(), c.clone());
    let hypotheses = vec![f.clone(), implies(f.clone(), f.clone())];
    for kept in [0, 1, 2_047, 2_048, 2_049, 4_000] {
        let mut tree = Tree::default();
        let root = tree.add(32, vec![]);
        let leaf = extend(&mut tree, root, 65, vec![f.clone(); kept]);
        tree.nodes[leaf].kind = 66;
        let (files, records) = write(&world, &hypotheses, &not(f.clone()), &tree, true);
        let answer = match kept {
            0 => Answer::new(14, 2, records[1] as u64, 2),
            2_049.. => Answer::new(17, 2, records[0] as u64, 1),
            _ => Answer::accepted(2),
        };
        let label = format!("BR2 to {kept} members");
        list.push(limit(Second::Derivation, label, files, answer));
    }
    // Rule, goal, parts, number of premises, whether a member is added.
    let over = plain_all(f.clone());
    let implied = implies(f.clone(), f.clone());
    let conj = and(f.clone(), f.clone());
    let rules: Vec<(u32, Expr, Vec<Expr>, usize, bool)> = vec![
        (67, f.clone(), vec![f.clone()], 2, true),
        (69, f.clone(), vec![implied.clone()], 2, false),
        (70, conj.clone(), vec![], 2, false),
        (71, f.clone(), vec![conj.clone()], 1, false),
        (72, f.clone(), vec![conj.clone()], 1, false),
        (73, implied.clone(), vec![], 1, true),
        (74, f.clone(), vec![implied.clone()], 1, false),
        (75, f.clone(), vec![f.clone()], 2, true),
        (76, not(f.clone()), vec![f.clone()], 2, true),
        (77, over.clone(), vec![c.clone(), f.clone()], 1, false),
        (78, f.clone(), vec![over.clone(), c.clone()], 1, false),
        (
            79,
            f.clone(),
            vec![f.clone(), refl.clone(), f.clone()],
            2,
            false,
        ),
    ];
    for (kind, goal, parts, premises, adds) in rules {
        for before in [2_046, 2_047, 2_048] {
            // All that the premises may have as goals are members, so that BR3 closes them.
            let members = [
                f.clone(),
                not(f.clone()),
                implied.clone(),
                conj.clone(),
                over.clone(),
                if kind == 79 { refl.clone() } else { f.clone() },
            ];
            let mut kept: Vec<Expr> = members.to_vec();
            kept.resize(before, f.clone());
            let mut tree = Tree::default();
            let root = tree.add(32, vec![]);
            let at = extend(&mut tree, root, 65, kept);
            tree.nodes[at].kind = kind;
            tree.nodes[at].parts = parts.clone();
            for _ in 0..premises {
                let leaf = tree.add(66, vec![]);
                tree.nodes[at].premises.push(leaf);
            }
            let typed_members: Vec<Expr> = members.iter().map(|m| typed(m, &c)).collect();
            let negated = not(typed(&goal, &c));
            let (files, records) = write(&world, &typed_members, &negated, &tree, true);
            let after = before + usize::from(adds);
            let answer = match after > 2_048 {
                true => Answer::new(17, 2, records[at] as u64, 2),
                false => Answer::accepted(2 + premises as u64),
            };
            let label = format!("rule {kind} from {before} to {after} members");
            list.push(limit(Second::Derivation, label, files, answer));
        }
    }
}

/// These few formulas with their types: only ∀ lacks one.
fn typed(plain: &Expr, c: &Expr) -> Expr {
    match plain.kind() {
        ALL => all(given(0), bottom()),
        EQUAL => equal(c.clone(), c.clone()),
        _ => plain.clone(),
    }
}

/// Branches of 8,192 nodes and of one more, by several rules; at that depth the lower refusals win.
fn derivation_depth(list: &mut Vec<Limit>) {
    let mut world = World::bare();
    let c = constant(world.new_constant(given(0)));
    let f = bottom();
    let over = plain_all(f.clone());
    for depth in [8_191, 8_192, 8_193, 8_194] {
        for way in 0..4 {
            let mut tree = Tree::default();
            let mut at = tree.add(66, vec![]);
            for level in 1..depth {
                at = match (way, level % 2) {
                    // Up to ∀ and down again, over nothing, as long as there is room for both.
                    (1, 1) if level + 1 < depth => {
                        extend(&mut tree, at, 78, vec![over.clone(), c.clone()])
                    }
                    (1, 0) => extend(&mut tree, at, 77, vec![c.clone(), f.clone()]),
                    (2, 1) => {
                        // The short premise is walked first.
                        let side = tree.add(66, vec![]);
                        tree.nodes[at].premises.push(side);
                        extend(&mut tree, at, 67, vec![f.clone()])
                    }
                    (3, _) => extend(&mut tree, at, 65, vec![f.clone(); 3]),
                    _ => extend(&mut tree, at, 65, vec![f.clone()]),
                };
            }
            tree.nodes[at].kind = 66;
            let hypotheses = [f.clone(), all(given(0), f.clone())];
            let (files, records) = write(&world, &hypotheses, &not(f.clone()), &tree, true);
            let answer = match first_too_deep(&tree) {
                Some((node, nodes)) => Answer::new(18, 2, records[node] as u64, nodes),
                None => Answer::accepted(tree.nodes.len() as u64),
            };
            let label = format!("{depth} nodes deep, way {way}");
            list.push(limit(Second::Derivation, label, files, answer));
        }
    }
    too_deep_and_wrong(list, &world, &c);
}

/// The first node of the walk past depth 8,192, and how many nodes are entered with it.
fn first_too_deep(tree: &Tree) -> Option<(usize, u64)> {
    let mut stack = vec![(0, 1)];
    let mut nodes = 0;
    while let Some((node, depth)) = stack.pop() {
        nodes += 1;
        if depth > 8_192 {
            return Some((node, nodes));
        }
        let premises = tree.nodes[node].premises.iter().rev();
        stack.extend(premises.map(|&p| (p, depth + 1)));
    }
    None
}

/// A node at depth 8,193 with another fault too: 18 is the last test of a node.
fn too_deep_and_wrong(list: &mut Vec<Limit>, world: &World, c: &Expr) {
    let f = bottom();
    let refl = equal(c.clone(), c.clone());
    let ends: Vec<(u64, u32, Vec<Expr>, usize)> = vec![
        (18, 66, vec![], 0),
        (13, 66, vec![f.clone()], 0),
        (13, 68, vec![], 0),
        (13, 73, vec![], 1),
        (14, 65, vec![refl.clone()], 1),
        (14, 64, vec![], 0),
        (15, 71, vec![and(not(f.clone()), f.clone())], 1),
        (15, 67, vec![equal(plain_bound(0), c.clone())], 2),
        (17, 65, vec![f.clone(); 2_049], 1),
        (18, 65, vec![f.clone(); 2_048], 1),
        (18, 67, vec![f.clone()], 2),
    ];
    for (number, (refusal, kind, parts, premises)) in ends.into_iter().enumerate() {
        let mut tree = Tree::default();
        let mut at = tree.add(66, vec![]);
        let both = vec![f.clone(), not(not(f.clone()))];
        for _ in 1..8_193 {
            at = extend(&mut tree, at, 65, both.clone());
        }
        tree.nodes[at].kind = kind;
        tree.nodes[at].parts = parts;
        for _ in 0..premises {
            let leaf = tree.add(66, vec![]);
            tree.nodes[at].premises.push(leaf);
        }
        let hypotheses = [f.clone(), not(not(f.clone()))];
        let (files, records) = write(world, &hypotheses, &not(f.clone()), &tree, true);
        let answer = Answer::new(refusal, 2, records[at] as u64, 8_193);
        let label = format!("8193 nodes deep and wrong {number}");
        list.push(limit(Second::Derivation, label, files, answer));
    }
    // R7 at that depth: the constant is in the goal.
    let mut tree = Tree::default();
    let mut at = tree.add(66, vec![]);
    for _ in 1..8_193 {
        at = extend(&mut tree, at, 65, vec![f.clone()]);
    }
    tree.nodes[at].kind = 77;
    tree.nodes[at].parts = vec![c.clone(), refl];
    let leaf = tree.add(66, vec![]);
    tree.nodes[at].premises.push(leaf);
    let goal = all(given(0), equal(bound(0, given(0)), c.clone()));
    let (files, records) = write(world, &[f], &not(goal), &tree, true);
    let answer = Answer::new(16, 2, records[at] as u64, 8_193);
    let label = String::from("8193 nodes deep and not fresh");
    list.push(limit(Second::Derivation, label, files, answer));
}

/// A tree of one step and what closes it.
fn one_step(kind: u32, parts: Vec<Expr>) -> Tree {
    let mut tree = Tree::default();
    let root = tree.add(32, vec![]);
    let next = extend(&mut tree, root, kind, parts);
    match kind {
        // The premise's goal is a member.
        78 => tree.nodes[next].kind = 66,
        77 => {
            // ⊥ is a member: the goal follows by R5.
            tree.nodes[next].kind = 75;
            tree.nodes[next].parts = vec![bottom()];
            for leaf in [66, 68] {
                let leaf = tree.add(leaf, vec![]);
                tree.nodes[next].premises.push(leaf);
            }
        }
        _ => {}
    }
    tree
}

/// File, rule, hypotheses, parts, ¬goal.
type InstanceCase = (Second, u32, Vec<Expr>, Vec<Expr>, Expr);

/// Rules 43, 44, 77 and 78 on a formula ∀B with B(c), right or not.
pub(super) fn instance_cases(
    list: &mut Vec<Limit>,
    world: &World,
    label: &str,
    over: &Expr,
    given: (&Expr, &Expr),
    right: bool,
) {
    let (c, instance) = given;
    let cases: [InstanceCase; 4] = [
        (
            Second::Proof,
            43,
            vec![bottom(), not(over.clone())],
            vec![not(over.clone()), c.clone(), instance.clone()],
            not(top()),
        ),
        (
            Second::Proof,
            44,
            vec![bottom(), over.clone()],
            vec![over.clone(), c.clone(), instance.clone()],
            not(top()),
        ),
        (
            Second::Derivation,
            77,
            vec![bottom()],
            vec![c.clone(), instance.plain()],
            not(over.clone()),
        ),
        (
            Second::Derivation,
            78,
            vec![over.clone()],
            vec![over.plain(), c.clone()],
            not(instance.clone()),
        ),
    ];
    for (kind, rule, hypotheses, parts, negated_goal) in cases {
        // An open formula cannot be the goal.
        if rule == 78 && instance.free() != 0 {
            continue;
        }
        let tree = one_step(rule, parts);
        let untyped = kind == Second::Derivation;
        let (files, records) = write(world, &hypotheses, &negated_goal, &tree, untyped);
        let answer = match right {
            true => Answer::accepted(tree.nodes.len() as u64),
            false => Answer::new(15, 2, records[0] as u64, 1),
        };
        let label = format!("rule {rule}, {label}, right: {right}");
        list.push(limit(kind, label, files, answer));
    }
}

/// ∀x over more binders, with an index that reaches x or not: 63 is the last that there is.
fn deep_binders(list: &mut Vec<Limit>) {
    let mut world = World::bare();
    let ty = given(0);
    let c = constant(world.new_constant(ty.clone()));
    for inner in [0, 1, 2, 31, 32, 62, 63, 64, 65, 100] {
        let index = inner.min(63);
        let wrap = |atom: Expr| (0..inner).fold(atom, |f, _| all(ty.clone(), f));
        let x = bound(index, ty.clone());
        let body = wrap(equal(x.clone(), x.clone()));
        let put = wrap(equal(c.clone(), c.clone()));
        let half = wrap(equal(c.clone(), x.clone()));
        let over = all(ty.clone(), body.clone());
        let reaches = inner <= 63;
        let label = format!("index {index} under {inner} further binders");
        let cases = [(&put, reaches), (&body, !reaches), (&half, false)];
        for (instance, right) in cases {
            instance_cases(list, &world, &label, &over, (&c, instance), right);
        }
    }
}

/// Instances as heavy as can be, made of few records.
fn heavy_instances(list: &mut Vec<Limit>) {
    let mut world = World::bare();
    let ty = given(0);
    let c = constant(world.new_constant(ty.clone()));
    let x = bound(0, ty.clone());
    let double = |atom: Expr| (0..9).fold(atom, |f, _| and(f.clone(), f));
    let body = double(equal(x.clone(), x.clone()));
    let put = double(equal(c.clone(), c.clone()));
    let other = constant(world.new_constant(ty.clone()));
    let wrong = and(put.child(0), double(equal(c.clone(), other)).child(0));
    let over = all(ty, body);
    for (instance, right) in [(&put, true), (&wrong, false)] {
        instance_cases(list, &world, "heavy", &over, (&c, instance), right);
    }
}
