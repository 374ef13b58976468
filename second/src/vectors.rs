//! The cases of the vector files, and U4's bytes of the rules.

use crate::reader::Second;
use crate::Answer;
use std::path::Path;

/// The files of answers.
pub const FILES: [&str; 6] = [
    "readings.txt",
    "special.txt",
    "pairs.txt",
    "u1.txt",
    "u3.txt",
    "u4.txt",
];
/// The files of listings.
pub const LISTINGS: [&str; 2] = ["u2.txt", "u2_after_u3.txt"];

pub struct Vector {
    pub label: String,
    pub kind: Second,
    pub obligation: Vec<u8>,
    pub second: Vec<u8>,
    pub answer: Answer,
}

/// A proof with the whole output that lists its nodes.
pub struct ListingVector {
    pub label: String,
    pub obligation: Vec<u8>,
    pub proof: Vec<u8>,
    pub output: Vec<u8>,
}

/// The numbers of a rule as U4 has them: 15 stands for one that varies.
#[derive(Clone, Copy, Debug, PartialEq, Eq)]
pub struct RuleByte {
    pub kind: u32,
    pub byte: usize,
    pub parts: usize,
    pub premises: usize,
}

fn text_of(file: &str) -> String {
    let directory = Path::new(env!("CARGO_MANIFEST_DIR")).join("vectors");
    std::fs::read_to_string(directory.join(file)).expect("the vector file is there")
}

/// The cases of a file of answers.
pub fn vectors(file: &str) -> Vec<Vector> {
    let text = text_of(file);
    let lines: Vec<&str> = text.lines().filter(|l| !l.trim().is_empty()).collect();
    assert!(
        !lines.is_empty() && lines.len().is_multiple_of(4),
        "{file}: four lines a case"
    );
    lines.chunks(4).map(vector).collect()
}

fn vector(lines: &[&str]) -> Vector {
    let (label, kind) = after("case", lines[0])
        .rsplit_once(' ')
        .expect("a label and a kind");
    Vector {
        label: label.to_string(),
        kind: match kind {
            "proof" => Second::Proof,
            "derivation" => Second::Derivation,
            _ => panic!("unknown kind {kind}"),
        },
        obligation: bytes_of(after("ob", lines[1])),
        second: bytes_of(after("second", lines[2])),
        answer: answer_of(after("answer", lines[3])),
    }
}

/// The cases of a file of listings.
pub fn listings(file: &str) -> Vec<ListingVector> {
    let text = text_of(file);
    let mut lines = text.split('\n');
    let mut list = Vec::new();
    while let Some(first) = lines.find(|line| !line.is_empty()) {
        list.push(listing(first, &mut lines));
    }
    assert!(!list.is_empty(), "{file}: no case");
    list
}

/// The case that starts with this line; its other lines are taken.
fn listing<'a>(first: &str, lines: &mut impl Iterator<Item = &'a str>) -> ListingVector {
    let label = after("case", first).strip_suffix(" tree");
    let mut next = || lines.next().expect("a further line of the case");
    let obligation = bytes_of(after("ob", next()));
    let proof = bytes_of(after("second", next()));
    let count: usize = after("lines", next()).parse().expect("a number of lines");
    let output: String = (0..count).flat_map(|_| [next(), "\n"]).collect();
    ListingVector {
        label: label.expect("a case of kind tree").to_string(),
        obligation,
        proof,
        output: output.into_bytes(),
    }
}

/// The lines of `u4_bytes.txt`.
pub fn rule_bytes() -> Vec<RuleByte> {
    let text = text_of("u4_bytes.txt");
    let lines = text.lines().filter(|line| !line.starts_with('#'));
    lines.map(rule_byte).collect()
}

fn rule_byte(line: &str) -> RuleByte {
    let words: Vec<&str> = line.split_whitespace().collect();
    let [kind, byte, parts, premises] = words[..] else {
        panic!("four numbers are wanted in {line}");
    };
    let number = |word: &str| word.parse().expect("a number");
    RuleByte {
        kind: number(kind) as u32,
        byte: usize::from_str_radix(byte, 16).expect("a hexadecimal byte"),
        parts: number(parts),
        premises: number(premises),
    }
}

fn after<'a>(word: &str, line: &'a str) -> &'a str {
    line.strip_prefix(word)
        .unwrap_or_else(|| panic!("{word} is wanted in {line}"))
        .trim()
}

fn bytes_of(hex: &str) -> Vec<u8> {
    assert!(hex.len().is_multiple_of(2), "two digits a byte");
    (0..hex.len())
        .step_by(2)
        .map(|i| u8::from_str_radix(&hex[i..i + 2], 16).expect("a hexadecimal byte"))
        .collect()
}

fn answer_of(text: &str) -> Answer {
    let numbers: Vec<u64> = text
        .split_whitespace()
        .map(|n| n.parse().expect("a number"))
        .collect();
    assert_eq!(numbers.len(), 4, "an answer has four numbers");
    Answer::new(numbers[0], numbers[1], numbers[2], numbers[3])
}
