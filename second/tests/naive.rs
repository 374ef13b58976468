//! The arena's answers against plain recursion over the records: equality with and without types, weights,
//! unbound indices, type variables, occurrence, replacement of index 0 and of type variables, and the type of choices.

use second::arena::{Id, Seen};
use second::generate::rng::Rng;
use second::generate::{derivation_case, proof_case};
use second::kinds::*;
use second::reader::{read, Book, Second};
use second::replace::{is_replaced, Put};
use second::typing::is_typed;
use second::words::Record;

fn record(book: &Book, number: u32) -> Record {
    book.records[number as usize]
}

fn chain(book: &Book, mut link: u32) -> Vec<u32> {
    let mut items = Vec::new();
    while link != 0 {
        items.push(record(book, link).a);
        link = record(book, link).c;
    }
    items
}

/// What a type, term or formula names, types first; the flag marks what stands under a binder.
fn named(book: &Book, number: u32) -> (Vec<u32>, Vec<(u32, bool)>) {
    let Record { kind, a, b, c } = record(book, number);
    match kind {
        SET_TYPE => (vec![a], vec![]),
        PAIR_TYPE => (vec![a, b], vec![]),
        BOUND => (vec![b], vec![]),
        PAIR | PRODUCT => (vec![c], vec![(a, false), (b, false)]),
        POWERSET | CHOICE => (vec![b], vec![(a, false)]),
        APPLICATION => {
            let arguments = chain(book, c).into_iter().map(|r| (r, false));
            (chain(book, b), arguments.collect())
        }
        AND | IMPLIES | EQUAL | IN => (vec![], vec![(a, false), (b, false)]),
        NOT => (vec![], vec![(a, false)]),
        ALL => (vec![a], vec![(b, true)]),
        ALL_TYPES => (vec![], vec![(b, false)]),
        _ => (vec![], vec![]),
    }
}

/// What tells apart two records besides what they name.
fn sign(book: &Book, number: u32) -> (u32, u32) {
    let Record { kind, a, .. } = record(book, number);
    match kind {
        GIVEN | CONSTANT => (kind, number),
        TYPE_VARIABLE | BOUND | ALL_TYPES | APPLICATION => (kind, a),
        _ => (kind, 0),
    }
}

fn equal(book: &Book, x: u32, y: u32) -> bool {
    let ((x_types, x_rest), (y_types, y_rest)) = (named(book, x), named(book, y));
    let all = |x: &[u32], y: &[u32]| {
        x.len() == y.len() && x.iter().zip(y).all(|(&x, &y)| equal(book, x, y))
    };
    let bare = |list: &[(u32, bool)]| list.iter().map(|&(r, _)| r).collect::<Vec<u32>>();
    sign(book, x) == sign(book, y) && all(&x_types, &y_types) && all(&bare(&x_rest), &bare(&y_rest))
}

fn equal_without_types(book: &Book, x: u32, y: u32) -> bool {
    let (rx, ry) = (record(book, x), record(book, y));
    if rx.kind == ALL_TYPES {
        return equal_without_types(book, rx.b, y);
    }
    if ry.kind == ALL_TYPES {
        return equal_without_types(book, x, ry.b);
    }
    match (rx.kind, ry.kind) {
        (TOP, TOP) => return true,
        (TOP, NOT) => return record(book, ry.a).kind == BOTTOM,
        (NOT, TOP) => return record(book, rx.a).kind == BOTTOM,
        _ => {}
    }
    let (x_rest, y_rest) = (named(book, x).1, named(book, y).1);
    sign(book, x) == sign(book, y)
        && x_rest.len() == y_rest.len()
        && x_rest
            .iter()
            .zip(&y_rest)
            .all(|(&(x, _), &(y, _))| equal_without_types(book, x, y))
}

fn weight(book: &Book, number: u32) -> u64 {
    let (types, rest) = named(book, number);
    let types: u64 = types.iter().map(|&r| weight(book, r)).sum();
    1 + types + rest.iter().map(|&(r, _)| weight(book, r)).sum::<u64>()
}

fn has_free_index(book: &Book, number: u32, depth: u32) -> bool {
    let Record { kind, a, .. } = record(book, number);
    (kind == BOUND && a >= depth)
        || (named(book, number).1.iter())
            .any(|&(r, binds)| has_free_index(book, r, depth + u32::from(binds)))
}

fn has_type_variable(book: &Book, number: u32, variable: u32) -> bool {
    let Record { kind, a, .. } = record(book, number);
    let (types, rest) = named(book, number);
    (kind == TYPE_VARIABLE && a == variable)
        || types.iter().any(|&r| has_type_variable(book, r, variable))
        || rest
            .iter()
            .any(|&(r, _)| has_type_variable(book, r, variable))
}

fn occurs(book: &Book, constant: u32, number: u32) -> bool {
    constant == number
        || named(book, number)
            .1
            .iter()
            .any(|&(r, _)| occurs(book, constant, r))
}

/// Whether `whole` is `body` with index 0 replaced by the term.
fn replaced(book: &Book, body: u32, depth: u32, term: u32, whole: u32) -> bool {
    let r = record(book, body);
    if r.kind == BOUND && r.a == depth {
        return equal(book, term, whole);
    }
    let ((types, rest), (w_types, w_rest)) = (named(book, body), named(book, whole));
    sign(book, body) == sign(book, whole)
        && types.len() == w_types.len()
        && rest.len() == w_rest.len()
        && types.iter().zip(&w_types).all(|(&x, &y)| equal(book, x, y))
        && rest
            .iter()
            .zip(&w_rest)
            .all(|(&(x, binds), &(y, _))| replaced(book, x, depth + u32::from(binds), term, y))
}

/// Whether `whole` is `body` with types put in for the type variables.
fn types_put(book: &Book, body: u32, types: &[u32], whole: u32) -> bool {
    let r = record(book, body);
    if r.kind == TYPE_VARIABLE {
        let put = types.get(r.a as usize);
        return put.is_some_and(|&ty| equal(book, ty, whole));
    }
    let list = |number: u32| -> Vec<u32> {
        let (types, rest) = named(book, number);
        types.into_iter().chain(rest.iter().map(|r| r.0)).collect()
    };
    let (parts, w_parts) = (list(body), list(whole));
    sign(book, body) == sign(book, whole)
        && parts.len() == w_parts.len()
        && (parts.iter().zip(w_parts)).all(|(&x, y)| types_put(book, x, types, y))
}

/// Whether `whole` is `body` with index 0 replaced by the term, types dropped.
fn replaced_without_types(book: &Book, body: u32, depth: u32, term: u32, whole: u32) -> bool {
    let (r, w) = (record(book, body), record(book, whole));
    if r.kind == ALL_TYPES {
        return replaced_without_types(book, r.b, depth, term, whole);
    }
    if w.kind == ALL_TYPES {
        return replaced_without_types(book, body, depth, term, w.b);
    }
    if r.kind == BOUND && r.a == depth {
        return equal_without_types(book, term, whole);
    }
    if [r.kind, w.kind].contains(&TOP) {
        return equal_without_types(book, body, whole);
    }
    let (rest, w_rest) = (named(book, body).1, named(book, whole).1);
    sign(book, body) == sign(book, whole)
        && rest.len() == w_rest.len()
        && rest.iter().zip(&w_rest).all(|(&(x, binds), &(y, _))| {
            replaced_without_types(book, x, depth + u32::from(binds), term, y)
        })
}

/// The type that a term bears.
fn type_of(book: &Book, term: u32) -> u32 {
    let Record { kind, a, b, c } = record(book, term);
    match kind {
        CONSTANT => a,
        BOUND | POWERSET | CHOICE => b,
        PAIR | PRODUCT => c,
        _ => chain(book, b)[0],
    }
}

/// Whether s is of type Set(τ), τ the choice's own type.
fn is_typed_choice(book: &Book, number: u32) -> bool {
    let Record { a, b, .. } = record(book, number);
    let set = record(book, type_of(book, a));
    set.kind == SET_TYPE && equal(book, set.a, b)
}

fn id(book: &Book, number: u32) -> Id {
    book.items[number as usize]
        .id()
        .expect("a type, term or formula")
}

/// Compares on one read case; gives back how many questions were asked.
fn compare(book: &mut Book, rng: &mut Rng) -> u64 {
    let all: Vec<u32> = (1..book.records.len() as u32)
        .filter(|&r| book.items[r as usize].id().is_some())
        .collect();
    let of = |test: fn(u32) -> bool| -> Vec<u32> {
        let fits = |r: &u32| test(book.records[*r as usize].kind);
        all.iter().copied().filter(fits).collect()
    };
    let (terms, quantified) = (of(is_term), of(|kind| kind == ALL));
    let formulas = of(|kind| is_formula(kind) || kind == ALL_TYPES);
    let constants = of(|kind| kind == CONSTANT);
    let mut asked = 0;
    for &r in &all {
        let facts = book.arena.facts(id(book, r));
        assert_eq!(facts.weight, weight(book, r));
        assert_eq!(facts.free != 0, has_free_index(book, r, 0));
        for variable in 0..4 {
            let found = facts.type_variables >> variable & 1 == 1;
            assert_eq!(found, has_type_variable(book, r, variable));
        }
        let other = *rng.pick(&all);
        assert_eq!(id(book, r) == id(book, other), equal(book, r, other));
        asked += 3;
    }
    let mut seen = Seen::default();
    for &f in &formulas {
        if let Some(&c) = constants.get(rng.below(constants.len().max(1))) {
            let found = book.arena.occurs(id(book, c), &[id(book, f)], &mut seen);
            assert_eq!(found, occurs(book, c, f));
        }
        if quantified.is_empty() || terms.is_empty() {
            continue;
        }
        let body = record(book, *rng.pick(&quantified)).b;
        let term = *rng.pick(&terms);
        let put = Put::Term(id(book, term));
        let found = is_replaced(&book.arena, id(book, body), put, id(book, f));
        assert_eq!(found, replaced(book, body, 0, term, f));
        asked += 2;
    }
    let numbers: Vec<Id> = all.iter().map(|&r| id(book, r)).collect();
    let erased = book.arena.erase_all();
    for (&r, &typed) in all.iter().zip(&numbers) {
        let at = rng.below(all.len());
        if is_type(record(book, r).kind) || is_type(record(book, all[at]).kind) {
            continue;
        }
        let same = erased[typed as usize] == erased[numbers[at] as usize];
        assert_eq!(same, equal_without_types(book, r, all[at]));
        asked += 1;
    }
    asked
}

/// B, the term and B(t) of a node, as its parts have them.
fn instances(book: &Book, node: Record) -> Vec<(u32, u32, u32)> {
    let parts = chain(book, node.a);
    let kind = |number: u32| record(book, number).kind;
    let body = |all: u32| (kind(all) == ALL).then(|| record(book, all).b);
    let list = match (node.kind, &parts[..]) {
        (43, &[not, t, whole]) if kind(not) == NOT => vec![(body(record(book, not).a), t, whole)],
        (44, &[all, t, whole]) => vec![(body(all), t, whole)],
        (46, &[b, t, u, with_t, with_u]) => vec![(Some(b), t, with_t), (Some(b), u, with_u)],
        (79, &[b, equation, with_left]) if kind(equation) == EQUAL => {
            vec![(Some(b), record(book, equation).a, with_left)]
        }
        _ => vec![],
    };
    let formula = |number: u32| is_formula(kind(number)) || kind(number) == ALL_TYPES;
    list.into_iter()
        .filter_map(|(b, t, whole)| b.map(|b| (b, t, whole)))
        .filter(|&(b, t, whole)| formula(b) && is_term(kind(t)) && formula(whole))
        .collect()
}

fn has_choice(book: &Book, number: u32) -> bool {
    let rest = named(book, number).1;
    record(book, number).kind == CHOICE || rest.iter().any(|&(r, _)| has_choice(book, r))
}

/// Fitting instances, and those of them with a choice in B.
type Fitting = [u64; 2];

fn note(fitting: &mut Fitting, book: &Book, found: bool, body: u32) {
    fitting[0] += u64::from(found);
    fitting[1] += u64::from(found && has_choice(book, body));
}

/// Pairs that do fit are rare among random ones: those of the accepted walks are asked for too.
fn compare_nodes(book: &mut Book, fitting: &mut Fitting) {
    let erased = book.arena.erase_all();
    let book = &*book;
    for &node in book.records.iter().filter(|node| is_rule(node.kind)) {
        for (body, term, whole) in instances(book, node) {
            let [b, t, w] = [body, term, whole].map(|r| id(book, r));
            let found = is_replaced(&book.arena, b, Put::Term(t), w);
            assert_eq!(found, replaced(book, body, 0, term, whole));
            let [b, t, w] = [b, t, w].map(|id| erased[id as usize]);
            let plain = is_replaced(&book.arena, b, Put::Term(t), w);
            let wanted = replaced_without_types(book, body, 0, term, whole);
            assert_eq!(plain, wanted);
            note(fitting, book, found || plain, body);
        }
    }
}

/// The instances of rule 45.
fn compare_types(book: &Book, fitting: &mut Fitting) {
    for &node in book.records.iter().filter(|node| node.kind == 45) {
        let parts = chain(book, node.a);
        let [h, whole, types @ ..] = &parts[..] else {
            continue;
        };
        let kind = |number: u32| record(book, number).kind;
        let classes = kind(*h) == ALL_TYPES && is_formula(kind(*whole));
        if !classes || !types.iter().all(|&ty| is_type(kind(ty))) {
            continue;
        }
        let body = record(book, *h).b;
        let put: Vec<Id> = types.iter().map(|&ty| id(book, ty)).collect();
        let [b, w] = [body, *whole].map(|r| id(book, r));
        let found = is_replaced(&book.arena, b, Put::Types(&put), w);
        assert_eq!(found, types_put(book, body, types, *whole));
        note(fitting, book, found, body);
    }
}

/// Pairs of choices equal with types, equal without them only, and choices of a wrong own type.
type Choices = [u64; 3];

fn compare_choices(book: &mut Book, rng: &mut Rng, counts: &mut Choices) {
    let erased = book.arena.erase_all();
    let book = &*book;
    let numbers = 1..book.records.len() as u32;
    let is_choice = |&r: &u32| record(book, r).kind == CHOICE;
    let choices: Vec<u32> = numbers.filter(is_choice).collect();
    for &r in &choices {
        let other = *rng.pick(&choices);
        let [x, y] = [r, other].map(|r| id(book, r));
        assert_eq!(x == y, equal(book, r, other));
        let alike = erased[x as usize] == erased[y as usize];
        assert_eq!(alike, equal_without_types(book, r, other));
        let typed = is_typed(&book.arena, x, None);
        assert_eq!(typed, is_typed_choice(book, r));
        counts[0] += u64::from(r != other && x == y);
        counts[1] += u64::from(alike && x != y);
        counts[2] += u64::from(!typed);
    }
}

#[test]
fn arena_and_plain_recursion_agree() {
    let mut rng = Rng::new(3);
    let (mut asked, mut fitting, mut of_types) = (0, [0; 2], [0; 2]);
    let mut choices = [0; 3];
    for seed in 0..3_000 {
        for kind in [Second::Proof, Second::Derivation] {
            let case = match kind {
                Second::Proof => proof_case(seed),
                Second::Derivation => derivation_case(seed),
            };
            // The recursion is for small files.
            if case.second.len() > 16 * 600 {
                continue;
            }
            if let Ok(mut book) = read(&case.obligation, &case.second, kind) {
                compare_types(&book, &mut of_types);
                compare_nodes(&mut book, &mut fitting);
                compare_choices(&mut book, &mut rng, &mut choices);
                asked += compare(&mut book, &mut rng);
            }
        }
    }
    println!("{asked} questions, fitting instances {fitting:?}, of types {of_types:?}");
    println!("choices equal, equal without types only, of a wrong own type: {choices:?}");
    assert!(asked > 100_000 && fitting[0] > 500 && of_types[0] > 500);
    assert!(fitting[1] > 100 && of_types[1] > 100);
    assert!(choices.iter().all(|&count| count > 100));
}
