//! Names: the characters of a chain of name records, and the two name spaces.

use std::collections::HashSet;

pub const MOST_RECORDS: usize = 4;
pub const BYTES_PER_RECORD: usize = 8;

/// The first byte of the letters U+00C0 to U+00FF.
const COMPOSED: u8 = 0xC3;
/// The first byte of the marks; their second bytes follow.
const MARK: u8 = 0xCC;
const GRAVE: u8 = 0x80;
const ACUTE: u8 = 0x81;
const CIRCUMFLEX: u8 = 0x82;
const TILDE: u8 = 0x83;
const DIAERESIS: u8 = 0x88;
const RING: u8 = 0x8A;
const CEDILLA: u8 = 0xA7;

/// The letters U+00C0 to U+00FF that the Unicode Character Database decomposes: the letter's second byte,
/// then the ASCII letter and the mark's second byte. Rising.
pub const DECOMPOSITIONS: [(u8, u8, u8); 53] = [
    (0x80, b'A', GRAVE),
    (0x81, b'A', ACUTE),
    (0x82, b'A', CIRCUMFLEX),
    (0x83, b'A', TILDE),
    (0x84, b'A', DIAERESIS),
    (0x85, b'A', RING),
    (0x87, b'C', CEDILLA),
    (0x88, b'E', GRAVE),
    (0x89, b'E', ACUTE),
    (0x8A, b'E', CIRCUMFLEX),
    (0x8B, b'E', DIAERESIS),
    (0x8C, b'I', GRAVE),
    (0x8D, b'I', ACUTE),
    (0x8E, b'I', CIRCUMFLEX),
    (0x8F, b'I', DIAERESIS),
    (0x91, b'N', TILDE),
    (0x92, b'O', GRAVE),
    (0x93, b'O', ACUTE),
    (0x94, b'O', CIRCUMFLEX),
    (0x95, b'O', TILDE),
    (0x96, b'O', DIAERESIS),
    (0x99, b'U', GRAVE),
    (0x9A, b'U', ACUTE),
    (0x9B, b'U', CIRCUMFLEX),
    (0x9C, b'U', DIAERESIS),
    (0x9D, b'Y', ACUTE),
    (0xA0, b'a', GRAVE),
    (0xA1, b'a', ACUTE),
    (0xA2, b'a', CIRCUMFLEX),
    (0xA3, b'a', TILDE),
    (0xA4, b'a', DIAERESIS),
    (0xA5, b'a', RING),
    (0xA7, b'c', CEDILLA),
    (0xA8, b'e', GRAVE),
    (0xA9, b'e', ACUTE),
    (0xAA, b'e', CIRCUMFLEX),
    (0xAB, b'e', DIAERESIS),
    (0xAC, b'i', GRAVE),
    (0xAD, b'i', ACUTE),
    (0xAE, b'i', CIRCUMFLEX),
    (0xAF, b'i', DIAERESIS),
    (0xB1, b'n', TILDE),
    (0xB2, b'o', GRAVE),
    (0xB3, b'o', ACUTE),
    (0xB4, b'o', CIRCUMFLEX),
    (0xB5, b'o', TILDE),
    (0xB6, b'o', DIAERESIS),
    (0xB9, b'u', GRAVE),
    (0xBA, b'u', ACUTE),
    (0xBB, b'u', CIRCUMFLEX),
    (0xBC, b'u', DIAERESIS),
    (0xBD, b'y', ACUTE),
    (0xBF, b'y', DIAERESIS),
];

/// A name's characters: the file's bytes, but every accent composed, however the file spells it.
pub type Name = Vec<u8>;

/// The name if the records, in order, spell a right one.
pub fn spell(records: &[[u8; BYTES_PER_RECORD]]) -> Option<Name> {
    let (last, full) = records.split_last()?;
    if records.len() > MOST_RECORDS {
        return None;
    }
    // Only the last record may end in zero bytes; no record is empty.
    let length = last.iter().rposition(|&byte| byte != 0)? + 1;
    let bytes = &records.as_flattened()[..BYTES_PER_RECORD * full.len() + length];
    compose(bytes).filter(|name| has_right_characters(name))
}

/// The bytes with each letter and mark as the letter that decomposes into them; None where there is none,
/// so also for a mark after anything but an ASCII letter.
fn compose(bytes: &[u8]) -> Option<Name> {
    let mut pieces = bytes.split(|&byte| byte == MARK);
    let mut name = Name::with_capacity(bytes.len());
    name.extend_from_slice(pieces.next()?);
    for piece in pieces {
        let (&mark, after) = piece.split_first()?;
        let second = composed(name.pop()?, mark)?;
        name.extend([COMPOSED, second]);
        name.extend_from_slice(after);
    }
    Some(name)
}

/// The second byte of the letter that decomposes into these two.
fn composed(letter: u8, mark: u8) -> Option<u8> {
    let found = DECOMPOSITIONS
        .iter()
        .find(|entry| (entry.1, entry.2) == (letter, mark));
    found.map(|entry| entry.0)
}

fn has_right_characters(name: &[u8]) -> bool {
    let mut rest = name;
    let mut first = true;
    while let Some(length) = character_length(rest, first) {
        rest = &rest[length..];
        first = false;
        if rest.is_empty() {
            return true;
        }
    }
    false
}

/// The length of the right character at the front, if there is one.
fn character_length(bytes: &[u8], first: bool) -> Option<usize> {
    match *bytes {
        [byte, ..] if byte.is_ascii_alphabetic() => Some(1),
        [byte, ..] if !first && (byte.is_ascii_digit() || byte == b'_') => Some(1),
        [COMPOSED, 0x97 | 0xB7, ..] => None,
        [COMPOSED, 0x80..=0xBF, ..] => Some(2),
        _ => None,
    }
}

/// The names taken so far. Constants and functions share one space, given types have the other.
#[derive(Default)]
pub struct Taken {
    symbols: HashSet<Name>,
    given_types: HashSet<Name>,
}

impl Taken {
    /// False if the name was taken before.
    pub fn take_symbol(&mut self, name: Name) -> bool {
        self.symbols.insert(name)
    }

    /// False if the name was taken before.
    pub fn take_given_type(&mut self, name: Name) -> bool {
        self.given_types.insert(name)
    }
}
