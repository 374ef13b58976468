//! The table of decompositions, names against a plain definition by Unicode characters, and marks in
//! generated cases.

use second::generate::spelling::{accent_of, accents, marks, Accent};
use second::generate::{derivation_case, proof_case, Case};
use second::names::{spell, DECOMPOSITIONS};
use second::reader::Second;
use std::collections::HashMap;

/// A composed letter by its second byte.
fn composed(second: u8) -> char {
    char::from(second + 0x40)
}

#[test]
fn table_is_that_of_the_marks() {
    let mut by_mark: Vec<Accent> = accents().collect();
    by_mark.sort_by_key(|accent| accent.composed);
    let by_letter = DECOMPOSITIONS.map(|(second, letter, mark)| Accent {
        letter: char::from(letter),
        mark: String::from_utf8(vec![0xCC, mark]).unwrap().remove(0),
        composed: composed(second),
    });
    assert_eq!(by_letter.as_slice(), by_mark);
}

#[test]
fn table_is_whole() {
    let decomposes = |second: u8| DECOMPOSITIONS.iter().any(|entry| entry.0 == second);
    let others: String = (0x80..=0xBF)
        .filter(|&second| !decomposes(second))
        .map(composed)
        .collect();
    assert_eq!(others, "ÆÐ×ØÞßæð÷øþ");
    assert!(DECOMPOSITIONS.is_sorted_by_key(|entry| entry.0));
    // A capital letter and its small letter decompose alike.
    for (second, letter, mark) in DECOMPOSITIONS {
        let small = composed(second).to_lowercase().next().unwrap();
        let alike = (DECOMPOSITIONS.iter()).any(|&(s, l, m)| {
            composed(s) == small && l == letter.to_ascii_lowercase() && m == mark
        });
        assert!(alike, "{}", composed(second));
    }
}

/// The characters of a right name, from the bytes read as UTF-8.
fn by_characters(bytes: &[u8]) -> Option<String> {
    let mut name = String::new();
    for c in std::str::from_utf8(bytes).ok()?.chars() {
        if marks().any(|mark| mark == c) {
            let letter = name.pop()?;
            name.push(accent_of(letter, c)?.composed);
            continue;
        }
        let right = match c {
            'A'..='Z' | 'a'..='z' => true,
            '0'..='9' | '_' => !name.is_empty(),
            _ => ('À'..='ÿ').contains(&c) && c != '×' && c != '÷',
        };
        right.then(|| name.push(c))?;
    }
    (!name.is_empty()).then_some(name)
}

fn spelled(bytes: &[u8]) -> Option<String> {
    let mut record = [0; 8];
    record[..bytes.len()].copy_from_slice(bytes);
    spell(&[record]).map(|name| String::from_utf8(name).unwrap())
}

/// All names of up to five bytes out of those that matter.
#[test]
fn short_names() {
    let bytes = b"Eeyz1_\xC3\xCC\xCB\x80\x81\x83\x88\x89\x8A\xA7\xA9\x97";
    let mut names: Vec<Vec<u8>> = vec![Vec::new()];
    let mut right = 0;
    for _ in 0..5 {
        let longer = |name: &Vec<u8>| bytes.map(|byte| [name.as_slice(), &[byte]].concat());
        names = names.iter().flat_map(longer).collect();
        for name in &names {
            let wanted = by_characters(name);
            right += u32::from(wanted.is_some());
            assert_eq!(spelled(name), wanted, "{name:02x?}");
        }
    }
    assert!(right > 1_000, "{right} right names");
}

fn has_mark(case: &Case) -> bool {
    let files = [&case.obligation, &case.second];
    let mut records = files.into_iter().flat_map(|file| file.chunks_exact(16));
    records.any(|record| record[..4] == [2, 0, 0, 0] && record[4..12].contains(&0xCC))
}

/// Cases with marks, by label and by what the label promises.
fn cases_with_marks(kind: Second, seeds: u64) -> HashMap<String, u64> {
    let mut counts = HashMap::new();
    for seed in 0..seeds {
        let case = match kind {
            Second::Proof => proof_case(seed),
            Second::Derivation => derivation_case(seed),
        };
        if has_mark(&case) {
            let promise = case.label.split(':').next().unwrap();
            *counts.entry(promise.to_string()).or_default() += 1;
            *counts.entry(case.label).or_default() += 1;
        }
    }
    counts
}

#[test]
fn generated_names_have_marks() {
    for kind in [Second::Proof, Second::Derivation] {
        let counts = cases_with_marks(kind, 10_000);
        for (label, least) in [
            ("accepted", 1_000),
            ("any", 200),
            ("accepted: mark", 20),
            ("8: mark wrong", 20),
            ("9: spelling taken", 20),
            ("9: name taken before", 10),
            ("accepted: spelling shared", 20),
            ("accepted: spelling near", 20),
        ] {
            let count = counts.get(label).copied().unwrap_or(0);
            println!("{kind:?}, {label}: {count} cases with marks");
            assert!(count >= least, "{label}: {count}");
        }
    }
}
