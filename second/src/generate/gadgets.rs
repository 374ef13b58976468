//! Records that nothing else names, put into a file for one place's sake: a fault of refusals 3 to 10, or
//! an edge that must pass. Each gadget tells the refusal that it brings about, 0 for none.

use super::rng::Rng;
use super::writer::Writer;
use super::{choices, marks, spelling};
use crate::kinds::*;

/// The file that a gadget stands in.
#[derive(Clone, Copy, Debug, PartialEq, Eq)]
pub enum Place {
    Obligation,
    Proof,
    Derivation,
}

impl Place {
    pub fn is_typed(self) -> bool {
        self != Place::Derivation
    }

    pub fn most_weight(self) -> u64 {
        match self {
            Place::Derivation => 16_384,
            _ => 4_096,
        }
    }

    /// 10 where types count.
    pub fn typing(self) -> u64 {
        match self.is_typed() {
            true => 10,
            false => 0,
        }
    }
}

pub struct Bench<'a> {
    pub w: &'a mut Writer,
    pub rng: &'a mut Rng,
    pub place: Place,
}

type Gadget = fn(&mut Bench) -> u64;

/// All gadgets, by what they are about.
pub const GADGETS: &[(&str, Gadget)] = &[
    ("kind", kind),
    ("kind of another file", kind_elsewhere),
    ("word not 0", word_not_zero),
    ("range", range),
    ("range edge", range_edge),
    ("reference", reference),
    ("reference class", reference_class),
    ("kind 22 as a formula", kind_22_as_formula),
    ("item of a long chain", item_of_long_chain),
    ("chain length", chain_length),
    ("chain length edge", chain_length_edge),
    ("name records", name_records),
    ("weight past", weight_past),
    ("weight edge", weight_edge),
    ("name", name),
    ("name edge", name_edge),
    ("name unused", name_unused),
    ("name taken", name_taken),
    ("name shared", name_shared),
    ("mark", marks::right),
    ("mark wrong", marks::wrong),
    ("spelling taken", marks::taken),
    ("name taken before", marks::taken_before),
    ("spelling shared", marks::shared),
    ("spelling near", marks::near),
    ("typing of terms", typing_of_terms),
    ("typing of formulas", typing_of_formulas),
    ("typing of binders", typing_of_binders),
    ("typing of signatures", typing_of_signatures),
    ("typing of applications", typing_of_applications),
    ("typed", typed),
    ("kind in a choice's place", choices::kind),
    ("choice's third word", choices::third_word),
    ("choice's reference", choices::reference),
    ("choice's reference", choices::reference_class),
    ("typing of choices", choices::typing),
    ("typing around choices", choices::typing_around),
    ("typed choices", choices::typed),
    ("typed around choices", choices::typed_around),
    ("choice's weight", choices::weight),
];

impl Bench<'_> {
    pub fn push(&mut self, kind: u32, a: u32, b: u32, c: u32) -> u32 {
        self.w.push(kind, a, b, c)
    }

    /// A name that no other symbol has.
    pub fn fresh_name(&mut self) -> u32 {
        let bytes = format!("gadget_{}", self.w.count());
        self.w.name(bytes.as_bytes())
    }

    pub fn given(&mut self) -> u32 {
        let name = self.fresh_name();
        self.push(GIVEN, name, 0, 0)
    }

    pub fn constant(&mut self, ty: u32) -> u32 {
        let name = self.fresh_name();
        self.push(CONSTANT, ty, name, 0)
    }

    pub fn function(&mut self, types: &[u32], parameters: u32) -> u32 {
        let chain = self.w.chain(types);
        let name = self.fresh_name();
        self.push(FUNCTION, chain, parameters, name)
    }

    pub fn application(&mut self, function: u32, types: &[u32], arguments: &[u32]) -> u32 {
        let types = self.w.chain(types);
        let arguments = self.w.chain(arguments);
        self.push(APPLICATION, function, types, arguments)
    }

    pub fn bottom(&mut self) -> u32 {
        self.push(BOTTOM, 0, 0, 0)
    }

    pub fn choose(&mut self, count: usize) -> usize {
        self.rng.below(count)
    }

    /// A right record of the kind, made of right records.
    pub fn sample(&mut self, kind: u32) -> u32 {
        match kind {
            LINK => {
                let item = self.bottom();
                self.push(LINK, item, 0, 0)
            }
            NAME => self.fresh_name(),
            FUNCTION => {
                let ty = self.given();
                self.function(&[ty, ty], 1)
            }
            ALL_TYPES => {
                let f = self.bottom();
                self.push(ALL_TYPES, 1, f, 0)
            }
            kind if is_type(kind) => self.sample_type(kind),
            kind if is_term(kind) => self.sample_term(kind),
            kind if is_formula(kind) => self.sample_formula(kind),
            // A rule node without parts or premises.
            kind => self.push(kind, 0, 0, 0),
        }
    }

    fn sample_type(&mut self, kind: u32) -> u32 {
        match kind {
            SET_TYPE => {
                let ty = self.given();
                self.push(SET_TYPE, ty, 0, 0)
            }
            PAIR_TYPE => {
                let ty = self.given();
                self.push(PAIR_TYPE, ty, ty, 0)
            }
            TYPE_VARIABLE => self.push(TYPE_VARIABLE, 2, 0, 0),
            _ => self.given(),
        }
    }

    fn sample_term(&mut self, kind: u32) -> u32 {
        let ty = self.given();
        match kind {
            BOUND => self.push(BOUND, 1, ty, 0),
            PAIR => {
                let own = self.push(PAIR_TYPE, ty, ty, 0);
                let c = self.constant(ty);
                self.push(PAIR, c, c, own)
            }
            PRODUCT => {
                let pairs = self.push(PAIR_TYPE, ty, ty, 0);
                let own = self.push(SET_TYPE, pairs, 0, 0);
                let set = self.push(SET_TYPE, ty, 0, 0);
                let s = self.constant(set);
                self.push(PRODUCT, s, s, own)
            }
            POWERSET => {
                let set = self.push(SET_TYPE, ty, 0, 0);
                let own = self.push(SET_TYPE, set, 0, 0);
                let s = self.constant(set);
                self.push(POWERSET, s, own, 0)
            }
            CHOICE => {
                let set = self.push(SET_TYPE, ty, 0, 0);
                let s = self.constant(set);
                self.push(CHOICE, s, ty, 0)
            }
            APPLICATION => {
                let c = self.constant(ty);
                let function = self.function(&[ty, ty], 1);
                self.application(function, &[ty, ty], &[c])
            }
            _ => self.constant(ty),
        }
    }

    fn sample_formula(&mut self, kind: u32) -> u32 {
        match kind {
            AND | IMPLIES => {
                let f = self.bottom();
                self.push(kind, f, f, 0)
            }
            NOT => {
                let f = self.bottom();
                self.push(NOT, f, 0, 0)
            }
            ALL => {
                let ty = self.given();
                let f = self.bottom();
                self.push(ALL, ty, f, 0)
            }
            EQUAL => {
                let ty = self.given();
                let c = self.constant(ty);
                self.push(EQUAL, c, c, 0)
            }
            IN => {
                let ty = self.given();
                let c = self.constant(ty);
                let set = self.push(SET_TYPE, ty, 0, 0);
                let s = self.constant(set);
                self.push(IN, c, s, 0)
            }
            _ => self.push(kind, 0, 0, 0),
        }
    }

    /// A right record of the kind, then the same once more with one word set.
    pub fn again_with(&mut self, kind: u32, word: usize, value: u32) -> u32 {
        let record = self.sample(kind);
        self.written_again(record, word, value)
    }

    /// The last record with one word set in place of itself: a symbol's name must not be taken by the right one.
    pub fn written_again(&mut self, record: u32, word: usize, value: u32) -> u32 {
        let mut words = self.w.records[record as usize - 1].words();
        words[word] = value;
        self.w.records.pop();
        self.push(words[0], words[1], words[2], words[3])
    }

    /// A formula of exactly this weight, 1 or more.
    pub fn formula_of_weight(&mut self, weight: u64) -> u32 {
        let plan = halvings(weight);
        let mut record = self.bottom();
        for doubled in plan {
            record = match doubled {
                true => self.push(AND, record, record, 0),
                false => self.push(NOT, record, 0, 0),
            };
        }
        record
    }

    /// A type of exactly this weight, 1 or more.
    pub fn type_of_weight(&mut self, weight: u64) -> u32 {
        let plan = halvings(weight);
        let mut record = self.given();
        for doubled in plan {
            record = match doubled {
                true => self.push(PAIR_TYPE, record, record, 0),
                false => self.push(SET_TYPE, record, 0, 0),
            };
        }
        record
    }
}

/// The way from weight 1 up: true for 2w+1, false for w+1.
fn halvings(mut weight: u64) -> Vec<bool> {
    let mut plan = Vec::new();
    while weight > 1 {
        let doubled = weight % 2 == 1;
        weight = (weight - 1) / if doubled { 2 } else { 1 };
        plan.push(doubled);
    }
    plan.reverse();
    plan
}

fn kind(b: &mut Bench) -> u64 {
    let past = [81, 82, 100, 256, 257, 270, 288, 65_536, 1 << 24];
    let list = [&[0][..], &choices::NO_KINDS, &[47, 48, 60, 63], &past].concat();
    let kind = match b.choose(4) {
        0 => b.rng.word() | 128,
        1 => u32::MAX,
        _ => *b.rng.pick(&list),
    };
    let (x, y) = (b.rng.word() % 3, b.rng.word() % 3);
    b.push(kind, x, y, 0);
    3
}

fn kind_elsewhere(b: &mut Bench) -> u64 {
    let proof = b.rng.range(32, 46) as u32;
    let derivation = b.rng.range(64, 80) as u32;
    let kind = match (b.place, b.rng.chance(50)) {
        (Place::Proof, _) | (Place::Obligation, true) => derivation,
        _ => proof,
    };
    b.push(kind, 0, 0, 0);
    3
}

/// The words of each kind that must be 0.
const UNUSED: &[(u32, &[usize])] = &[
    (LINK, &[2]),
    (GIVEN, &[2, 3]),
    (SET_TYPE, &[2, 3]),
    (PAIR_TYPE, &[3]),
    (TYPE_VARIABLE, &[2, 3]),
    (CONSTANT, &[3]),
    (BOUND, &[3]),
    (POWERSET, &[3]),
    (CHOICE, &[3]),
    (BOTTOM, &[1, 2, 3]),
    (TOP, &[1, 2, 3]),
    (AND, &[3]),
    (IMPLIES, &[3]),
    (NOT, &[2, 3]),
    (ALL, &[3]),
    (EQUAL, &[3]),
    (IN, &[3]),
    (ALL_TYPES, &[3]),
];

fn word_not_zero(b: &mut Bench) -> u64 {
    let value = match b.choose(3) {
        0 => 1,
        1 => b.rng.word() | 1,
        _ => 1 << 31,
    };
    if b.place != Place::Obligation && b.rng.chance(10) {
        let kind = match b.place {
            Place::Proof => b.rng.range(32, 46),
            _ => b.rng.range(64, 80),
        };
        b.push(kind as u32, 0, 0, value);
        return 4;
    }
    let (kind, words) = *b.rng.pick(UNUSED);
    let word = *b.rng.pick(words);
    b.again_with(kind, word, value);
    4
}

fn range(b: &mut Bench) -> u64 {
    let far = b.rng.word() | 1 << 20;
    match b.choose(4) {
        0 => {
            let index = *b.rng.pick(&[64, 65, 127, 128, 256, far]);
            b.again_with(BOUND, 1, index)
        }
        1 => {
            let number = *b.rng.pick(&[4, 5, 7, 8, 256, far]);
            b.again_with(TYPE_VARIABLE, 1, number)
        }
        2 => {
            let parameters = *b.rng.pick(&[5, 6, 8, 256, far]);
            b.again_with(FUNCTION, 2, parameters)
        }
        _ => {
            let count = *b.rng.pick(&[0, 5, 6, 256, far]);
            b.again_with(ALL_TYPES, 1, count)
        }
    };
    4
}

fn range_edge(b: &mut Bench) -> u64 {
    match b.choose(4) {
        0 => {
            let index = *b.rng.pick(&[0, 1, 62, 63]);
            b.again_with(BOUND, 1, index)
        }
        1 => {
            let number = b.rng.below(4) as u32;
            b.again_with(TYPE_VARIABLE, 1, number)
        }
        2 => {
            let parameters = b.rng.below(5) as u32;
            b.again_with(FUNCTION, 2, parameters)
        }
        _ => {
            let count = b.rng.range(1, 4) as u32;
            b.again_with(ALL_TYPES, 1, count)
        }
    };
    0
}

/// The words of each kind that refer; the flag tells whether 0 is right.
const REFERENCES: &[(u32, &[(usize, bool)])] = &[
    (LINK, &[(1, false), (3, true)]),
    (NAME, &[(3, true)]),
    (GIVEN, &[(1, false)]),
    (SET_TYPE, &[(1, false)]),
    (PAIR_TYPE, &[(1, false), (2, false)]),
    (CONSTANT, &[(1, false), (2, false)]),
    (FUNCTION, &[(1, false), (3, false)]),
    (BOUND, &[(2, false)]),
    (PAIR, &[(1, false), (2, false), (3, false)]),
    (PRODUCT, &[(1, false), (2, false), (3, false)]),
    (POWERSET, &[(1, false), (2, false)]),
    (CHOICE, &[(1, false), (2, false)]),
    (APPLICATION, &[(1, false), (2, false), (3, true)]),
    (AND, &[(1, false), (2, false)]),
    (IMPLIES, &[(1, false), (2, false)]),
    (NOT, &[(1, false)]),
    (ALL, &[(1, false), (2, false)]),
    (EQUAL, &[(1, false), (2, false)]),
    (IN, &[(1, false), (2, false)]),
    (ALL_TYPES, &[(2, false)]),
];

fn reference(b: &mut Bench) -> u64 {
    let (kind, words) = *b.rng.pick(REFERENCES);
    let (word, may_be_zero) = *b.rng.pick(words);
    wrong_reference(b, kind, word, may_be_zero)
}

/// A right record of the kind but for one reference that is zero or not smaller.
pub fn wrong_reference(b: &mut Bench, kind: u32, word: usize, may_be_zero: bool) -> u64 {
    let record = b.sample(kind);
    // The record to be written in its place has the same number.
    let value = match b.choose(5) {
        0 if !may_be_zero => 0,
        0 | 1 => record,
        2 => record + 1,
        3 => record + b.rng.below(5_000) as u32,
        _ => b.rng.word() | 1 << 30,
    };
    b.written_again(record, word, value);
    5
}

#[derive(Clone, Copy, PartialEq, Eq)]
enum Class {
    Link,
    Name,
    Type,
    Term,
    Function,
    Formula,
    AllTypes,
}

const CLASSES: &[Class] = &[
    Class::Link,
    Class::Name,
    Class::Type,
    Class::Term,
    Class::Function,
    Class::Formula,
    Class::AllTypes,
];

/// The class that a word of the kind must refer to; None if any will do.
fn class_wanted(kind: u32, word: usize) -> Option<Class> {
    let class = match (kind, word) {
        (LINK, 1) => return None,
        (LINK, _) | (FUNCTION, 1) | (APPLICATION, 2 | 3) => Class::Link,
        (NAME, _) | (GIVEN, _) | (CONSTANT, 2) | (FUNCTION, _) => Class::Name,
        (SET_TYPE | PAIR_TYPE | CONSTANT | BOUND, _) => Class::Type,
        (PAIR | PRODUCT, 3) | (POWERSET | CHOICE, 2) | (ALL, 1) => Class::Type,
        (PAIR | PRODUCT | POWERSET | CHOICE | EQUAL | IN, _) => Class::Term,
        (APPLICATION, _) => Class::Function,
        _ => Class::Formula,
    };
    Some(class)
}

impl Class {
    fn kinds(self) -> &'static [u32] {
        match self {
            Class::Link => &[LINK],
            Class::Name => &[NAME],
            Class::Type => &[GIVEN, SET_TYPE, PAIR_TYPE, TYPE_VARIABLE],
            Class::Term => &[
                CONSTANT,
                BOUND,
                PAIR,
                PRODUCT,
                POWERSET,
                CHOICE,
                APPLICATION,
            ],
            Class::Function => &[FUNCTION],
            Class::Formula => &[BOTTOM, TOP, AND, IMPLIES, NOT, ALL, EQUAL, IN],
            Class::AllTypes => &[ALL_TYPES],
        }
    }
}

fn reference_class(b: &mut Bench) -> u64 {
    loop {
        let (kind, words) = *b.rng.pick(REFERENCES);
        let (word, _) = *b.rng.pick(words);
        if class_wanted(kind, word).is_some() {
            return wrong_class(b, kind, word);
        }
    }
}

/// A right record of the kind but for one reference to a record of another class.
pub fn wrong_class(b: &mut Bench, kind: u32, word: usize) -> u64 {
    let wanted = class_wanted(kind, word);
    loop {
        let other = *b.rng.pick(CLASSES);
        if wanted != Some(other) {
            let wrong = *b.rng.pick(other.kinds());
            let wrong = b.sample(wrong);
            b.again_with(kind, word, wrong);
            return 5;
        }
    }
}

fn kind_22_as_formula(b: &mut Bench) -> u64 {
    let h = b.sample(ALL_TYPES);
    let f = b.bottom();
    let ty = b.given();
    match b.choose(8) {
        0 => b.push(NOT, h, 0, 0),
        1 => b.push(AND, h, f, 0),
        2 => b.push(AND, f, h, 0),
        3 => b.push(IMPLIES, h, f, 0),
        4 => b.push(IMPLIES, f, h, 0),
        5 => b.push(ALL, ty, h, 0),
        6 => b.push(ALL_TYPES, 1, h, 0),
        // On a chain that no rule uses it is no formula.
        _ => {
            b.push(LINK, h, 0, 0);
            return 0;
        }
    };
    5
}

/// The class of an item far down a chain comes before the chain's length.
fn item_of_long_chain(b: &mut Bench) -> u64 {
    let ty = b.given();
    let c = b.constant(ty);
    let wrong = match b.choose(4) {
        0 => b.bottom(),
        1 => b.sample(FUNCTION),
        2 => b.fresh_name(),
        _ => b.sample(ALL_TYPES),
    };
    let length = b.rng.range(1, 9);
    let at = b.rng.below(length);
    let list = |right: u32| -> Vec<u32> {
        (0..length)
            .map(|i| if i == at { wrong } else { right })
            .collect()
    };
    match b.choose(3) {
        0 => {
            b.function(&list(ty), 0);
        }
        1 => {
            let function = b.function(&[ty], 0);
            b.application(function, &list(ty), &[]);
        }
        _ => {
            let function = b.function(&[ty], 0);
            b.application(function, &[ty], &list(c));
        }
    }
    5
}

fn chain_length(b: &mut Bench) -> u64 {
    let ty = b.given();
    let c = b.constant(ty);
    let past = b.rng.below(4);
    match b.choose(4) {
        0 => {
            b.function(&vec![ty; 6 + past], 0);
        }
        1 => {
            let function = b.function(&[ty], 0);
            b.application(function, &vec![ty; 6 + past], &[]);
        }
        2 => {
            let function = b.function(&[ty, ty, ty, ty, ty], 0);
            b.application(function, &[ty], &vec![c; 5 + past]);
        }
        _ => {
            let function = b.function(&[ty], 4);
            b.application(function, &vec![ty; 6 + past], &vec![c; 5 + past]);
        }
    }
    6
}

fn chain_length_edge(b: &mut Bench) -> u64 {
    let ty = b.given();
    let c = b.constant(ty);
    let parameters = b.rng.below(5);
    let arguments = b.rng.below(5);
    let function = b.function(&vec![ty; 1 + arguments], parameters as u32);
    b.application(function, &vec![ty; 1 + parameters], &vec![c; arguments]);
    0
}

fn name_records(b: &mut Bench) -> u64 {
    let length = b.rng.range(33, 56);
    let mut bytes = Vec::new();
    match b.rng.chance(50) {
        // Fewer than 33 characters may be more than 32 bytes.
        true => spelling::fill(b.rng, &mut bytes, length),
        false => bytes.resize(length, b'a'),
    }
    let name = b.w.name(&bytes);
    let name = match b.rng.chance(20) {
        // Its bytes are wrong too, but its length comes first.
        true => b.push(NAME, 0, 0, name),
        false => name,
    };
    symbol(b, name);
    6
}

/// A symbol of one of the three sorts with the name.
pub fn symbol(b: &mut Bench, name: u32) -> u32 {
    let given = b.choose(3) == 0;
    symbol_in_space(b, given, name)
}

fn weight_past(b: &mut Bench) -> u64 {
    let most = b.place.most_weight();
    weigh(b, most + 1)
}

fn weight_edge(b: &mut Bench) -> u64 {
    let most = b.place.most_weight();
    let less = *b.rng.pick(&[0, 0, 1, 2, 100]);
    weigh(b, most - less)
}

/// One record of exactly the weight; typed rightly except where types don't count.
fn weigh(b: &mut Bench, weight: u64) -> u64 {
    let which = b.choose(WEIGHT_SORTS + 1);
    weigh_one(b, which, weight)
}

/// The sorts of records that have a weight of their own: those of `push_of_weight`, then those with choices.
pub const WEIGHT_SORTS: usize = SORTS_WITHOUT_CHOICES + choices::WEIGHT_SORTS;

const SORTS_WITHOUT_CHOICES: usize = 7;

/// The record of the weight, by sort; past the sorts an equation that is light, though of a heavy type.
pub fn weigh_one(b: &mut Bench, which: usize, weight: u64) -> u64 {
    let most = b.place.most_weight();
    match which {
        0..SORTS_WITHOUT_CHOICES => {
            push_of_weight(b, which, weight);
        }
        SORTS_WITHOUT_CHOICES..WEIGHT_SORTS => {
            choices::weigh(b, which - SORTS_WITHOUT_CHOICES, weight);
        }
        _ => {
            // Constants of any type weigh 1: no weight to refuse here.
            let ty = b.type_of_weight(most);
            let c = b.constant(ty);
            b.push(EQUAL, c, c, 0);
            return 0;
        }
    }
    match weight > most {
        true => 7,
        false => 0,
    }
}

/// A record of the weight without choices: formulas of several kinds, types, terms.
fn push_of_weight(b: &mut Bench, sort: usize, weight: u64) -> u32 {
    match sort {
        0 => b.formula_of_weight(weight),
        1 => b.type_of_weight(weight),
        2 => {
            let ty = b.type_of_weight(weight - 1);
            b.push(BOUND, 0, ty, 0)
        }
        3 => {
            let ty = b.type_of_weight(100);
            let f = b.formula_of_weight(weight - 101);
            b.push(ALL, ty, f, 0)
        }
        4 => {
            let f = b.formula_of_weight(weight - 1);
            b.push(ALL_TYPES, 2, f, 0)
        }
        5 => {
            let f = b.formula_of_weight(weight / 3);
            let g = b.formula_of_weight(weight - 1 - weight / 3);
            b.push(IMPLIES, f, g, 0)
        }
        _ => {
            // A function without arguments: 1 + own type + type argument.
            let own = b.type_of_weight(weight - 2);
            let other = b.given();
            let function = b.function(&[own], 1);
            b.application(function, &[own, other], &[])
        }
    }
}

fn name(b: &mut Bench) -> u64 {
    let bytes: Vec<u8> = match b.choose(8) {
        0 => vec![b'0' + b.rng.below(10) as u8, b'a'],
        1 => b"_a".to_vec(),
        2 => {
            let list = b" -.@[`{/:^'\x01\x7f\t$";
            vec![b'a', *b.rng.pick(list), b'b']
        }
        3 => vec![
            0xC3,
            *b.rng.pick(&[0x97, 0xB7, 0x7F, 0xC0, 0x00, 0x41, 0xFF]),
        ],
        4 => vec![b'a', 0xC3],
        5 => vec![*b.rng.pick(&[0x80, 0xBF, 0xC2, 0xC4, 0xE9, 0xFF]), 0x80],
        6 => {
            let mut long = vec![b'a'; b.rng.range(7, 31)];
            long.push(0xC3);
            long
        }
        _ => b"abcdefgh\0ijk".to_vec(),
    };
    let name = match b.choose(4) {
        0 => {
            // An empty record at the end, alone or before others.
            let empty = b.push(NAME, 0, 0, 0);
            match b.choose(3) {
                0 => empty,
                1 => b.push(NAME, 0x6161_6161, 0x6161_6161, empty),
                _ => {
                    let rest = b.w.name(b"abc");
                    b.push(NAME, 0, 0, rest)
                }
            }
        }
        1 => {
            // A record that is not full before the last.
            let rest = b.w.name(b"abc");
            b.push(NAME, 0x6161_6161, 0x0000_6161, rest)
        }
        _ => b.w.name(&bytes),
    };
    symbol(b, name);
    8
}

fn name_edge(b: &mut Bench) -> u64 {
    let number = b.w.count();
    let mut bytes = format!("e{number}_").into_bytes();
    match b.choose(5) {
        0 => bytes.resize(32, b'z'),
        1 => bytes.extend([0xC3, 0x80 + b.rng.below(23) as u8]),
        2 => bytes.extend([0xC3, *b.rng.pick(&[0x80, 0x96, 0x98, 0xB6, 0xB8, 0xBF])]),
        3 => {
            // A letter of two bytes over two records.
            bytes.resize(7, b'Z');
            bytes.extend([0xC3, 0xA9]);
        }
        _ => {
            bytes.resize(30, b'9');
            bytes.extend([0xC3, 0x9F]);
        }
    }
    let name = b.w.name(&bytes);
    symbol(b, name);
    0
}

fn name_unused(b: &mut Bench) -> u64 {
    let mut next = 0;
    for _ in 0..b.rng.range(1, 7) {
        let (low, high) = (b.rng.word(), b.rng.word());
        next = match b.rng.chance(20) {
            true => b.push(NAME, 0, 0, next),
            false => b.push(NAME, low, high, next),
        };
    }
    0
}

fn name_taken(b: &mut Bench) -> u64 {
    let bytes = format!("taken_{}", b.w.count()).into_bytes();
    let first = b.w.name(&bytes);
    // By the same record or by another with the same bytes.
    let second = match b.rng.chance(50) {
        true => b.w.name(&bytes),
        false => first,
    };
    let given = first.is_multiple_of(3);
    symbol_in_space(b, given, first);
    symbol_in_space(b, given, second);
    9
}

/// A given type, or a symbol of the other name space.
pub fn symbol_in_space(b: &mut Bench, given: bool, name: u32) -> u32 {
    if given {
        return b.push(GIVEN, name, 0, 0);
    }
    let ty = b.given();
    match b.rng.chance(50) {
        true => b.push(CONSTANT, ty, name, 0),
        false => {
            let types = b.w.chain(&[ty]);
            b.push(FUNCTION, types, 0, name)
        }
    }
}

fn name_shared(b: &mut Bench) -> u64 {
    let bytes = format!("shared_{}", b.w.count()).into_bytes();
    let name = b.w.name(&bytes);
    let ty = b.push(GIVEN, name, 0, 0);
    b.push(CONSTANT, ty, name, 0);
    0
}

/// Types and constants for the typing gadgets.
pub struct Kit {
    pub ty: u32,
    pub other: u32,
    /// Sets of the type.
    pub set: u32,
    /// Pairs of the type and the other.
    pub pairs: u32,
    pub c: u32,
    /// A constant of the other type.
    pub d: u32,
    /// A constant of the set type.
    pub s: u32,
}

pub fn kit(b: &mut Bench) -> Kit {
    let ty = b.given();
    let other = b.given();
    let set = b.push(SET_TYPE, ty, 0, 0);
    let pairs = b.push(PAIR_TYPE, ty, other, 0);
    let c = b.constant(ty);
    let d = b.constant(other);
    let s = b.constant(set);
    Kit {
        ty,
        other,
        set,
        pairs,
        c,
        d,
        s,
    }
}

fn typing_of_terms(b: &mut Bench) -> u64 {
    let k = kit(b);
    let sets = b.push(SET_TYPE, k.set, 0, 0);
    let turned = b.push(PAIR_TYPE, k.other, k.ty, 0);
    let squares = b.push(PAIR_TYPE, k.ty, k.ty, 0);
    let set_of_squares = b.push(SET_TYPE, squares, 0, 0);
    let set_of_pairs = b.push(SET_TYPE, k.pairs, 0, 0);
    match b.choose(10) {
        0 => b.push(PAIR, k.c, k.d, turned),
        1 => b.push(PAIR, k.c, k.c, k.pairs),
        2 => b.push(PAIR, k.c, k.c, set_of_squares),
        3 => b.push(PRODUCT, k.s, k.s, squares),
        4 => b.push(PRODUCT, k.s, k.s, set_of_pairs),
        5 => b.push(PRODUCT, k.s, k.c, set_of_squares),
        6 => b.push(PRODUCT, k.c, k.c, set_of_squares),
        7 => b.push(POWERSET, k.s, k.set, 0),
        8 => b.push(POWERSET, k.c, k.set, 0),
        _ => b.push(POWERSET, k.c, sets, 0),
    };
    b.place.typing()
}

fn typing_of_formulas(b: &mut Bench) -> u64 {
    let k = kit(b);
    let x = b.push(BOUND, 3, k.ty, 0);
    match b.choose(7) {
        0 => b.push(EQUAL, k.c, k.d, 0),
        1 => b.push(EQUAL, k.c, k.s, 0),
        2 => b.push(EQUAL, x, k.d, 0),
        3 => b.push(IN, k.d, k.s, 0),
        4 => b.push(IN, k.s, k.c, 0),
        5 => b.push(IN, k.s, k.s, 0),
        _ => b.push(IN, k.c, k.d, 0),
    };
    b.place.typing()
}

fn typing_of_binders(b: &mut Bench) -> u64 {
    let k = kit(b);
    let x = b.push(BOUND, 0, k.ty, 0);
    let y = b.push(BOUND, 1, k.ty, 0);
    let about_x = b.push(EQUAL, x, x, 0);
    let about_y = b.push(EQUAL, k.c, y, 0);
    match b.choose(4) {
        0 => b.push(ALL, k.other, about_x, 0),
        1 => {
            // The inner quantifier is right, the outer one is not.
            let inner = b.push(ALL, k.other, about_y, 0);
            b.push(ALL, k.other, inner, 0)
        }
        2 => {
            let set_x = b.push(BOUND, 0, k.set, 0);
            let two = b.push(IN, x, set_x, 0);
            b.push(ALL, k.ty, two, 0)
        }
        _ => {
            let both = b.push(AND, about_y, about_x, 0);
            let inner = b.push(ALL, k.ty, both, 0);
            b.push(ALL, k.set, inner, 0)
        }
    };
    b.place.typing()
}

fn typing_of_signatures(b: &mut Bench) -> u64 {
    let variable = b.rng.below(4) as u32;
    let v = b.push(TYPE_VARIABLE, variable, 0, 0);
    let deep = b.push(SET_TYPE, v, 0, 0);
    let ty = b.given();
    let v = match b.rng.chance(50) {
        true => v,
        false => deep,
    };
    match b.choose(3) {
        0 => {
            b.constant(v);
        }
        1 => {
            b.function(&[v], variable);
        }
        _ => {
            b.function(&[ty, ty, v], variable);
        }
    }
    b.place.typing()
}

fn typing_of_applications(b: &mut Bench) -> u64 {
    let k = kit(b);
    let v = b.push(TYPE_VARIABLE, 0, 0, 0);
    let set_v = b.push(SET_TYPE, v, 0, 0);
    let f = b.function(&[set_v, v, set_v], 1);
    match b.choose(8) {
        0 => b.application(f, &[k.set, k.ty], &[k.c]),
        1 => b.application(f, &[k.set, k.ty], &[k.c, k.s, k.s]),
        2 => b.application(f, &[k.set], &[k.c, k.s]),
        3 => b.application(f, &[k.set, k.ty, k.ty], &[k.c, k.s]),
        4 => b.application(f, &[k.ty, k.ty], &[k.c, k.s]),
        5 => b.application(f, &[k.set, k.ty], &[k.s, k.c]),
        6 => b.application(f, &[k.set, k.other], &[k.c, k.s]),
        _ => b.application(f, &[k.set, k.ty], &[k.d, k.s]),
    };
    b.place.typing()
}

/// Right ones of all sorts, types as equal structure in other records.
fn typed(b: &mut Bench) -> u64 {
    let k = kit(b);
    let set_again = b.push(SET_TYPE, k.ty, 0, 0);
    let v = b.push(TYPE_VARIABLE, 0, 0, 0);
    let w = b.push(TYPE_VARIABLE, 1, 0, 0);
    match b.choose(6) {
        0 => {
            let s = b.constant(set_again);
            b.push(EQUAL, s, k.s, 0)
        }
        1 => {
            // Put in all at once: variable 0 for 1 and 1 for 0.
            let pair = b.push(PAIR_TYPE, v, w, 0);
            let turned = b.push(PAIR_TYPE, w, v, 0);
            let f = b.function(&[pair], 2);
            b.application(f, &[turned, w, v], &[])
        }
        2 => b.push(PAIR, k.c, k.d, k.pairs),
        3 => {
            let x = b.push(BOUND, 1, set_again, 0);
            let c = b.push(IN, k.c, x, 0);
            let inner = b.push(ALL, k.other, c, 0);
            b.push(ALL, k.set, inner, 0)
        }
        4 => {
            let x = b.push(BOUND, 0, v, 0);
            let same = b.push(EQUAL, x, x, 0);
            let f = b.push(ALL, v, same, 0);
            b.push(ALL_TYPES, 1, f, 0)
        }
        _ => {
            let f = b.function(&[v, v], 1);
            let inner = b.application(f, &[k.ty, k.ty], &[k.c]);
            b.application(f, &[k.ty, k.ty], &[inner])
        }
    };
    0
}
