//! Gadgets for names with marks: right and wrong ones, and names that differ in spelling alone.

use super::gadgets::{symbol, symbol_in_space, Bench};
use super::rng::Rng;
use super::spelling::*;
use crate::kinds::*;

/// A name with accents, one of them marked for sure, that no other symbol has in any spelling.
fn accented(b: &mut Bench, most: usize) -> Vec<u8> {
    let number = b.w.count();
    let mut name = match b.choose(3) {
        0 => vec![b'm'],
        _ => random_accent(b.rng).spelled(b.rng).into_bytes(),
    };
    let before = b.rng.below(8);
    fill(b.rng, &mut name, before);
    name.extend(format!("{number}_").bytes());
    let length = *b.rng.pick(&[0, most / 2, most - 4, most - 3]);
    fill(b.rng, &mut name, length);
    name.extend(random_accent(b.rng).marked().bytes());
    name
}

pub fn right(b: &mut Bench) -> u64 {
    let mut bytes = accented(b, MOST_BYTES);
    fill_on(b.rng, &mut bytes);
    let name = b.w.name(&bytes);
    symbol(b, name);
    0
}

pub fn wrong(b: &mut Bench) -> u64 {
    let mut bytes = Vec::new();
    let before = b.rng.below(24);
    match b.choose(8) {
        0 => {
            // First in the name.
            bytes.extend(String::from(random_mark(b.rng)).bytes());
            fill_on(b.rng, &mut bytes);
        }
        1 => {
            // Cut off by the name's end.
            fill(b.rng, &mut bytes, before);
            bytes.extend([random_accent(b.rng).letter as u8, 0xCC]);
        }
        _ => {
            fill(b.rng, &mut bytes, before);
            bytes.extend(misplaced(b.rng));
            fill_on(b.rng, &mut bytes);
        }
    }
    let name = b.w.name(&bytes);
    symbol(b, name);
    8
}

/// By chance some letters more, at most up to the longest name.
fn fill_on(rng: &mut Rng, name: &mut Vec<u8>) {
    let length = rng.range(name.len(), MOST_BYTES);
    fill(rng, name, length);
}

/// What makes a name wrong wherever it stands in it, for the sake of its mark alone.
fn misplaced(rng: &mut Rng) -> Vec<u8> {
    let accent = random_accent(rng);
    let (letter, mark) = (accent.letter as u8, random_mark(rng));
    let second = accent.marked().as_bytes()[2];
    match rng.below(7) {
        0 => without_letter(rng).into_bytes(),
        1 => format!("{}{mark}", accent.marked()).into_bytes(),
        2 => {
            let composed = *rng.pick(&[accent.composed, accent.composed, 'Æ', 'ß', 'ø']);
            format!("{composed}{mark}").into_bytes()
        }
        3 => format!("a{}{mark}", rng.pick(&['0', '9', '_'])).into_bytes(),
        4 => vec![letter, 0xCC, no_mark(rng)],
        5 => vec![letter, *rng.pick(&[0x0C, 0xC2, 0xCB, 0xCD, 0xEC]), second],
        _ => vec![letter, 0, 0xCC, second],
    }
}

/// A letter and a mark that no composed letter has.
fn without_letter(rng: &mut Rng) -> String {
    loop {
        let letter = char::from(*rng.pick(b"ABCDEGINOSTUYZacegijnosuwxyz"));
        let mark = random_mark(rng);
        if accent_of(letter, mark).is_none() {
            return String::from_iter([letter, mark]);
        }
    }
}

/// A byte that makes no mark after CC.
fn no_mark(rng: &mut Rng) -> u8 {
    loop {
        let byte = match rng.chance(50) {
            true => *rng.pick(&[0x41, 0x7F, 0x84, 0x87, 0x89, 0x8B, 0xA6, 0xA8, 0xBF, 0xCC]),
            false => rng.word() as u8,
        };
        if marks().all(|mark| String::from(mark).as_bytes()[1] != byte) {
            return byte;
        }
    }
}

/// Two symbols of one name space, names alike but for their spelling.
pub fn taken(b: &mut Bench) -> u64 {
    let bytes = accented(b, MOST_BYTES);
    let again = respelled(b.rng, &bytes);
    let given = b.choose(3) == 0;
    for bytes in [bytes, again] {
        let name = b.w.name(&bytes);
        symbol_in_space(b, given, name);
    }
    9
}

/// The name of an earlier symbol of either file, with an accent if one has it, in another spelling.
pub fn taken_before(b: &mut Bench) -> u64 {
    let mut names: Vec<(bool, Vec<u8>)> = Vec::new();
    for record in &b.w.records {
        let name = match record.kind {
            GIVEN => record.a,
            CONSTANT => record.b,
            FUNCTION => record.c,
            _ => continue,
        };
        names.push((record.kind == GIVEN, b.w.bytes_of(name)));
    }
    if names.iter().any(|(_, name)| has_accent(name)) {
        names.retain(|(_, name)| has_accent(name));
    }
    if names.is_empty() {
        return taken(b);
    }
    let (given, bytes) = b.rng.pick(&names).clone();
    let again = respelled(b.rng, &bytes);
    let name = b.w.name(&again);
    symbol_in_space(b, given, name);
    9
}

/// One name in each of the two name spaces, alike but for their spelling.
pub fn shared(b: &mut Bench) -> u64 {
    let bytes = accented(b, MOST_BYTES);
    let again = respelled(b.rng, &bytes);
    let given_first = b.rng.chance(50);
    for (bytes, given) in [(bytes, given_first), (again, !given_first)] {
        let name = b.w.name(&bytes);
        symbol_in_space(b, given, name);
    }
    0
}

/// Two names of one name space that differ in one letter's case or accent.
pub fn near(b: &mut Bench) -> u64 {
    let start = accented(b, 24);
    let accent = random_accent(b.rng);
    let mut others: Vec<String> = vec![String::from(accent.letter)];
    for other in accents().filter(|&other| other != accent) {
        if other.letter.eq_ignore_ascii_case(&accent.letter) {
            others.push(other.spelled(b.rng));
        }
    }
    let mut end = Vec::new();
    let length = b.rng.below(6);
    fill(b.rng, &mut end, length);
    let given = b.choose(3) == 0;
    for letter in [accent.spelled(b.rng), b.rng.pick(&others).clone()] {
        let bytes = [&start, letter.as_bytes(), &end].concat();
        let name = b.w.name(&bytes);
        symbol_in_space(b, given, name);
    }
    0
}
