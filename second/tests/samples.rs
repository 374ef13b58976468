//! The files of tests/samples get the answers that stand in `expected` there, and its proofs the listings of tests/trees.

use second::{check_derivation, check_proof, listing, Answer};
use std::fs;
use std::path::PathBuf;

fn tests() -> PathBuf {
    PathBuf::from(env!("CARGO_MANIFEST_DIR")).join("../tests")
}

fn read(path: &str) -> Vec<u8> {
    let path = tests().join(path);
    fs::read(&path).unwrap_or_else(|error| panic!("{}: {error}", path.display()))
}

fn file(name: &str, kind: &str) -> Vec<u8> {
    read(&format!("samples/{name}.{kind}"))
}

/// What the second implementation answers to a sample of that kind.
fn found(kind: &str, name: &str) -> Answer {
    let (obligation, second) = (file(name, "obligation"), file(name, kind));
    match kind {
        "proof" => check_proof(&obligation, &second),
        "derivation" => check_derivation(&obligation, &second),
        _ => panic!("no kind of file: {kind}"),
    }
}

#[test]
fn samples() {
    let expected = String::from_utf8(read("samples/expected")).expect("text");
    let mut tried = 0;
    for line in expected.lines() {
        let mut words = line.split_whitespace();
        let (kind, name) = (words.next().unwrap(), words.next().unwrap());
        let wanted: Vec<&str> = words.collect();
        assert_eq!(found(kind, name).to_string(), wanted.join(" "), "{name}");
        if kind == "proof" {
            let listed = listing(&file(name, "obligation"), &file(name, kind));
            assert_eq!(listed, read(&format!("trees/{name}")), "{name} listed");
        }
        tried += 1;
    }
    assert!(tried >= 40, "20 proofs and 20 derivations, {tried} tried");
}
