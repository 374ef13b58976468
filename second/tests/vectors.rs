//! Every case of the vector files.

use second::reader::Second;
use second::vectors::{listings, vectors};
use second::{check_derivation, check_proof, listing};

fn run(file: &str) {
    let cases = vectors(file);
    let mut differ = Vec::new();
    for case in &cases {
        let found = match case.kind {
            Second::Proof => check_proof(&case.obligation, &case.second),
            Second::Derivation => check_derivation(&case.obligation, &case.second),
        };
        if found != case.answer {
            differ.push(format!(
                "{} {:?}: {} is wanted, {} is found",
                case.label, case.kind, case.answer, found
            ));
        }
    }
    println!("{file}: {} cases, {} differ", cases.len(), differ.len());
    assert!(differ.is_empty(), "{file}:\n{}", differ.join("\n"));
}

#[test]
fn readings() {
    run("readings.txt");
}

#[test]
fn special() {
    run("special.txt");
}

#[test]
fn pairs() {
    run("pairs.txt");
}

#[test]
fn u1() {
    run("u1.txt");
}

#[test]
fn u3() {
    run("u3.txt");
}

#[test]
fn u4() {
    run("u4.txt");
}

fn run_listings(file: &str, count: usize) {
    let cases = listings(file);
    println!("{file}: {} cases", cases.len());
    assert_eq!(cases.len(), count, "{file}");
    for case in cases {
        let found = listing(&case.obligation, &case.proof);
        let [wanted, found] = [&case.output, &found].map(|text| String::from_utf8_lossy(text));
        assert_eq!(found, wanted, "{}", case.label);
    }
}

#[test]
fn u2() {
    run_listings("u2.txt", 173);
}

#[test]
fn u2_after_u3() {
    run_listings("u2_after_u3.txt", 197);
}
