//! The numbers of parts and premises that the checks ask for, found by trying, are those of U4's bytes.

use second::generate::rng::Rng;
use second::generate::writer::Writer;
use second::kinds::{is_rule, BOTTOM};
use second::reader::{self, Second};
use second::vectors::{rule_bytes, vectors, RuleByte, Vector};
use second::words::{self, Record};
use second::{check_derivation, check_proof, Answer};
use std::collections::BTreeSet;
use std::iter::repeat;

/// One past the highest number of a half.
const MOST: usize = 16;
/// In a half: the number varies.
const VARIES: usize = 15;

type Passing = BTreeSet<usize>;

/// The cases in which a rule of this kind is the root of an accepted file.
fn right_cases(kind: u32) -> Vec<Vector> {
    let label = format!("u4/{kind}-right");
    let mut cases = vectors("u4.txt");
    cases.retain(|case| case.label.starts_with(&label));
    assert!(!cases.is_empty(), "{label}");
    cases
}

/// Whether the root passes 13 with its parts cut or its last one repeated, and with so many premises.
fn passes(case: &Vector, parts: usize, premises: usize) -> bool {
    let book = reader::read(&case.obligation, &case.second, case.kind);
    let book = book.unwrap_or_else(|_| panic!("{}: accepted", case.label));
    let header = words::records(&case.obligation)[0];
    let root = book.records[book.root as usize];
    let own = book.on_chain(root.parts(), MOST);
    let more = own.last().copied().unwrap_or(header.c);
    let parts: Vec<u32> = own.into_iter().chain(repeat(more)).take(parts).collect();
    let mut w = Writer::new(Rng::new(0));
    w.records = book.records[1..].iter().map(without_node).collect();
    w.m = Some(header.a);
    let leaf = match case.kind {
        Second::Proof => 32,
        Second::Derivation => 66,
    };
    let premises: Vec<u32> = (0..premises).map(|_| w.push(leaf, 0, 0, 0)).collect();
    let [parts, premises] = [parts, premises].map(|list| w.chain(&list));
    let node = w.push(root.kind, parts, premises, 0);
    let (obligation, second) = w.files(header.b, header.c, node);
    let answer = check(case.kind, &obligation, &second);
    assert!(answer.nodes > 0, "{}: {answer}", case.label);
    (answer.refusal, answer.record) != (13, u64::from(node))
}

/// The nodes of the case are named no more, so none may be left (12).
fn without_node(record: &Record) -> Record {
    match is_rule(record.kind) {
        true => Record::new(BOTTOM, 0, 0, 0),
        false => *record,
    }
}

fn check(kind: Second, obligation: &[u8], second: &[u8]) -> Answer {
    match kind {
        Second::Proof => check_proof(obligation, second),
        Second::Derivation => check_derivation(obligation, second),
    }
}

/// The numbers of parts and those of premises with which the root passes.
fn passing(case: &Vector) -> (Passing, Passing) {
    let pairs = (0..=MOST).flat_map(|parts| (0..=MOST).map(move |premises| (parts, premises)));
    let passing = pairs.filter(|&(parts, premises)| passes(case, parts, premises));
    passing.unzip()
}

fn half(kind: u32, numbers: Passing) -> usize {
    let numbers: Vec<usize> = numbers.into_iter().collect();
    match numbers[..] {
        [] => panic!("{kind}: no number passes"),
        [number] => number,
        _ => VARIES,
    }
}

fn found(kind: u32) -> RuleByte {
    let (parts, premises): (Vec<Passing>, Vec<Passing>) =
        right_cases(kind).iter().map(passing).unzip();
    let [parts, premises] =
        [parts, premises].map(|list| half(kind, list.into_iter().flatten().collect()));
    RuleByte {
        kind,
        byte: 16 * parts + premises,
        parts,
        premises,
    }
}

#[test]
fn each_byte() {
    let wanted = rule_bytes();
    let kinds: Vec<u32> = wanted.iter().map(|rule| rule.kind).collect();
    assert_eq!(kinds, (32..=46).chain(64..=80).collect::<Vec<u32>>());
    let pairs = wanted.into_iter().map(|rule| (rule, found(rule.kind)));
    let differ: Vec<String> = pairs
        .filter(|(wanted, found)| wanted != found)
        .map(|(wanted, found)| format!("{wanted:?} is wanted, {found:?} is found"))
        .collect();
    assert!(differ.is_empty(), "{}", differ.join("\n"));
}

/// H, its instance and as many types as H's count.
#[test]
fn parts_of_45_are_its_counts() {
    let found = right_cases(45).into_iter().map(|case| passing(&case).0);
    let wanted = [3, 4, 5, 6].map(|number| Passing::from([number]));
    assert_eq!(found.collect::<Vec<Passing>>(), wanted);
}

#[test]
fn parts_of_65_are_any() {
    for case in right_cases(65) {
        assert_eq!(passing(&case).0, (0..=MOST).collect());
    }
}
