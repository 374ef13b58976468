//! The listing of a proof's nodes next to the bytes of its file and to the answer, and the program that prints it.

use second::generate::limits::limits;
use second::generate::{large_cases, proof_case, Case};
use second::reader::Second;
use second::words::{records, Record};
use second::{check_proof, listing, Answer};
use std::collections::HashSet;
use std::process::{Command, Output};

const SEEDS: u64 = 6_000;
const LARGE_SEEDS: u64 = 30;

/// Depth, record, kind and first part.
type Line = [u32; 4];

/// A listing taken apart: its node lines and the numbers of its last line, if it has one.
struct Listing {
    nodes: Vec<Line>,
    refused: Option<String>,
}

fn listed(case: &Case) -> Listing {
    let text = String::from_utf8(listing(&case.obligation, &case.second)).expect("ASCII");
    let lines = text.strip_suffix('\n').expect("a newline at the end");
    let mut lines: Vec<&str> = lines.split('\n').collect();
    assert_eq!(lines.remove(0), "tree 1", "{}", case.label);
    let refused = lines.last().and_then(|line| line.strip_prefix("refused "));
    let refused = refused.map(String::from);
    if refused.is_some() {
        lines.pop();
    }
    let nodes = lines.into_iter().map(node_line).collect();
    Listing { nodes, refused }
}

/// Four numbers written without a sign or zeros before them, single spaces between.
fn node_line(line: &str) -> Line {
    let numbers: Vec<u32> = line
        .split(' ')
        .map(|number| number.parse().expect("a number"))
        .collect();
    let line_of: Line = numbers.try_into().expect("four numbers");
    assert_eq!(line_of.map(|number| number.to_string()).join(" "), line);
    line_of
}

/// The files' records in the one numbering; record 0 has zeros.
fn numbered(case: &Case) -> Vec<Record> {
    let [obligation, proof] = [&case.obligation, &case.second].map(|bytes| records(bytes));
    let zero = Record::new(0, 0, 0, 0);
    [&[zero], &obligation[1..], &proof[1..]].concat()
}

/// The nodes of a subtree by plain recursion over the records, a node before its premises, up to so many in all.
fn list_subtree(records: &[Record], node: u32, depth: u32, most: usize, list: &mut Vec<Line>) {
    if list.len() == most {
        return;
    }
    let record = records[node as usize];
    let first_part = records[record.a as usize].a;
    list.push([depth, node, record.kind, first_part]);
    let mut link = record.b;
    while link != 0 && list.len() < most {
        let Record { a, c, .. } = records[link as usize];
        list_subtree(records, a, depth + 1, most, list);
        link = c;
    }
}

/// As many nodes of the file as the answer counts, from the root that the header names.
fn wanted(case: &Case, answer: Answer) -> Vec<Line> {
    let mut list = Vec::new();
    if answer.nodes > 0 {
        let root = records(&case.second)[0].b;
        list_subtree(&numbered(case), root, 0, answer.nodes as usize, &mut list);
    }
    list
}

/// The first line has depth 0, each other at most one more than the line before and never 0; no record has two lines.
fn is_in_walk_order(nodes: &[Line]) -> bool {
    let records: HashSet<u32> = nodes.iter().map(|line| line[1]).collect();
    nodes.first().is_none_or(|line| line[0] == 0)
        && nodes
            .windows(2)
            .all(|pair| (1..=pair[0][0] + 1).contains(&pair[1][0]))
        && records.len() == nodes.len()
}

/// Counts of what was listed.
#[derive(Default)]
struct Listed {
    accepted: u64,
    before_walk: u64,
    in_walk: u64,
    most_nodes: usize,
}

impl Listed {
    fn add(&mut self, case: &Case) {
        let answer = check_proof(&case.obligation, &case.second);
        let Listing { nodes, refused } = listed(case);
        assert_eq!(nodes.len() as u64, answer.nodes, "{}", case.label);
        assert!(is_in_walk_order(&nodes), "{}", case.label);
        assert_eq!(nodes, wanted(case, answer), "{}", case.label);
        let last = (!answer.is_accepted()).then(|| answer.to_string());
        assert_eq!(refused, last, "{}", case.label);
        match (answer.is_accepted(), answer.nodes) {
            (true, _) => self.accepted += 1,
            (false, 0) => self.before_walk += 1,
            (false, _) => self.in_walk += 1,
        }
        self.most_nodes = self.most_nodes.max(nodes.len());
    }

    fn all(what: &str, cases: impl Iterator<Item = Case>) -> Listed {
        let mut listed = Listed::default();
        cases.for_each(|case| listed.add(&case));
        println!(
            "{what}: {} accepted, {} refused before the walk, {} in the walk, up to {} nodes",
            listed.accepted, listed.before_walk, listed.in_walk, listed.most_nodes
        );
        listed
    }
}

#[test]
fn generated() {
    let listed = Listed::all("generated", (0..SEEDS).map(proof_case));
    let counts = [listed.accepted, listed.before_walk, listed.in_walk];
    assert!(counts.iter().all(|&count| count >= SEEDS / 10));
}

#[test]
fn large() {
    let cases = (0..LARGE_SEEDS).flat_map(|seed| large_cases(Second::Proof, seed));
    let listed = Listed::all("large", cases);
    assert!(listed.accepted >= LARGE_SEEDS / 2 && listed.in_walk >= LARGE_SEEDS);
    assert!(listed.most_nodes >= 500);
}

#[test]
fn at_the_limits() {
    let proofs = limits()
        .into_iter()
        .filter(|limit| limit.kind == Second::Proof);
    let listed = Listed::all("limits", proofs.map(|limit| limit.case));
    assert_eq!(listed.most_nodes, 1_536);
}

fn program(arguments: &[&str]) -> Output {
    Command::new(env!("CARGO_BIN_EXE_second"))
        .args(arguments)
        .output()
        .expect("the program runs")
}

#[test]
fn program_prints_it() {
    let samples = concat!(env!("CARGO_MANIFEST_DIR"), "/../tests/samples/");
    let [obligation, proof, none] =
        ["d5.obligation", "d5.proof", "none"].map(|name| samples.to_string() + name);
    let found = program(&["tree", &obligation, &proof]);
    let lines = "tree 1\n0 17 43 6\n1 12 34 10\nrefused 14 2 12 2\n";
    assert_eq!(String::from_utf8_lossy(&found.stdout), lines);
    assert!(found.stderr.is_empty() && found.status.success());
    for wrong in [
        &["tree", &none, &proof][..],
        &["tree", &obligation, &none],
        &["tree", &obligation],
        &["tree", &obligation, &proof, &proof],
    ] {
        let found = program(wrong);
        assert!(found.stdout.is_empty(), "{wrong:?}");
        assert!(!found.stderr.is_empty() && !found.status.success());
    }
}
