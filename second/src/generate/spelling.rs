//! Both spellings of an accent. The table is by mark, apart from the reader's table by composed letter.

use super::rng::Rng;

pub const MOST_BYTES: usize = 32;

/// A letter and a mark, and the composed letter that they are.
#[derive(Clone, Copy, Debug, PartialEq, Eq)]
pub struct Accent {
    pub letter: char,
    pub mark: char,
    pub composed: char,
}

impl Accent {
    pub fn marked(self) -> String {
        String::from_iter([self.letter, self.mark])
    }

    pub fn composed(self) -> String {
        String::from(self.composed)
    }

    /// One spelling or the other.
    pub fn spelled(self, rng: &mut Rng) -> String {
        match rng.chance(60) {
            true => self.marked(),
            false => self.composed(),
        }
    }
}

/// Each mark with the letters that it may follow, and what they become.
const MARKS: [(char, &str, &str); 7] = [
    ('\u{300}', "AEIOUaeiou", "ÀÈÌÒÙàèìòù"),
    ('\u{301}', "AEIOUYaeiouy", "ÁÉÍÓÚÝáéíóúý"),
    ('\u{302}', "AEIOUaeiou", "ÂÊÎÔÛâêîôû"),
    ('\u{303}', "ANOano", "ÃÑÕãñõ"),
    ('\u{308}', "AEIOUaeiouy", "ÄËÏÖÜäëïöüÿ"),
    ('\u{30A}', "Aa", "Åå"),
    ('\u{327}', "Cc", "Çç"),
];

pub fn marks() -> impl Iterator<Item = char> {
    MARKS.iter().map(|&(mark, ..)| mark)
}

pub fn accents() -> impl Iterator<Item = Accent> {
    MARKS.iter().flat_map(|&(mark, letters, composed)| {
        (letters.chars().zip(composed.chars())).map(move |(letter, composed)| Accent {
            letter,
            mark,
            composed,
        })
    })
}

pub fn accent_of(letter: char, mark: char) -> Option<Accent> {
    accents().find(|accent| (accent.letter, accent.mark) == (letter, mark))
}

pub fn random_accent(rng: &mut Rng) -> Accent {
    let all: Vec<Accent> = accents().collect();
    *rng.pick(&all)
}

pub fn random_mark(rng: &mut Rng) -> char {
    MARKS[rng.below(MARKS.len())].0
}

/// Adds letters, many of them with accents, up to exactly the length.
pub fn fill(rng: &mut Rng, name: &mut Vec<u8>, length: usize) {
    while name.len() < length {
        let before = name.len();
        match rng.chance(60) {
            true => name.extend(random_accent(rng).spelled(rng).bytes()),
            false => name.push(b'a' + rng.below(26) as u8),
        }
        if name.len() > length {
            name.truncate(before);
        }
    }
}

/// The characters of a right name, each as it is spelled.
fn spellings(name: &[u8]) -> Vec<String> {
    let mut list: Vec<String> = Vec::new();
    for c in String::from_utf8_lossy(name).chars() {
        match list.last_mut() {
            Some(letter) if marks().any(|mark| mark == c) => letter.push(c),
            _ => list.push(String::from(c)),
        }
    }
    list
}

/// The other spelling of a character with an accent.
fn other_spelling(character: &str) -> Option<String> {
    let mut chars = character.chars();
    match (chars.next()?, chars.next()) {
        (letter, Some(mark)) => accent_of(letter, mark).map(Accent::composed),
        (letter, None) => accents().find(|a| a.composed == letter).map(Accent::marked),
    }
}

pub fn has_accent(name: &[u8]) -> bool {
    (spellings(name).iter()).any(|character| other_spelling(character).is_some())
}

/// The characters of a right name, accents composed: two names are one if these are.
pub fn characters(name: &[u8]) -> String {
    let composed = |character: String| match character.chars().count() {
        1 => character,
        _ => other_spelling(&character).unwrap_or(character),
    };
    spellings(name).into_iter().map(composed).collect()
}

/// The same characters, one accent or more spelled otherwise where the length allows it.
pub fn respelled(rng: &mut Rng, name: &[u8]) -> Vec<u8> {
    let mut list = spellings(name);
    let mut length = name.len();
    let from = rng.below(list.len());
    let mut changed = false;
    for i in 0..list.len() {
        let place = (from + i) % list.len();
        let Some(other) = other_spelling(&list[place]) else {
            continue;
        };
        let after = length - list[place].len() + other.len();
        if after <= MOST_BYTES && !(changed && rng.chance(50)) {
            list[place] = other;
            length = after;
            changed = true;
        }
    }
    list.concat().into_bytes()
}
