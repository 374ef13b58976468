//! Large files for measuring: ordinary ones, and ones that are costly for a careless reader.

pub mod buckets;
pub mod derivations;
pub mod edges;
pub mod walks;

use second::generate::rng::Rng;
use second::generate::writer::Writer;
use second::kinds::*;
use second::reader::Second;

pub const MOST_OBLIGATION: u32 = 1_023;
const MOST_PROOF: u32 = 3_072;
const MOST_DERIVATION: u32 = 200_000;
const LETTERS: &[u8] = b"abcdefghijklmnopqrstuvwxyzABCDEFGHIJKLMNOPQRSTUVWXYZ0123456789_";

#[derive(Clone)]
pub struct Shape {
    pub name: String,
    pub kind: Second,
    pub obligation: Vec<u8>,
    pub second: Vec<u8>,
}

impl Shape {
    /// Records of both files, headers counted.
    pub fn records(&self) -> usize {
        (self.obligation.len() + self.second.len()) / 16
    }
}

pub fn most_records(kind: Second) -> u32 {
    match kind {
        Second::Proof => MOST_PROOF,
        Second::Derivation => MOST_DERIVATION,
    }
}

/// A pair of files in the making, with a few records that every shape needs.
pub struct Sheet {
    w: Writer,
    kind: Second,
    names: usize,
    bottom: u32,
    goal: u32,
    given: u32,
    /// A constant of the given type.
    c: u32,
    /// A constant of the given type's set type.
    s: u32,
    /// The hypothesis chain's head, once there is one.
    head: u32,
}

impl Sheet {
    pub fn new(kind: Second) -> Sheet {
        let mut w = Writer::new(Rng::new(0));
        let bottom = w.push(BOTTOM, 0, 0, 0);
        let goal = w.push(NOT, bottom, 0, 0);
        let name = w.name(b"G");
        let given = w.push(GIVEN, name, 0, 0);
        let sets = w.push(SET_TYPE, given, 0, 0);
        let name = w.name(b"c");
        let c = w.push(CONSTANT, given, name, 0);
        let name = w.name(b"s");
        let s = w.push(CONSTANT, sets, name, 0);
        Sheet {
            w,
            kind,
            names: 0,
            bottom,
            goal,
            given,
            c,
            s,
            head: 0,
        }
    }

    /// The record number that the file in the making may reach, `spare` records left over.
    fn end(&self, spare: u32) -> u32 {
        let last = match self.w.m {
            None => MOST_OBLIGATION,
            Some(m) => m + most_records(self.kind),
        };
        last - spare
    }

    fn is_before(&self, end: u32) -> bool {
        self.w.count() < end
    }

    fn end_obligation(&mut self) {
        self.w.end_obligation(false);
    }

    fn rule(&self) -> u32 {
        match self.kind {
            Second::Proof => 37,
            Second::Derivation => 67,
        }
    }

    /// Ends the second file with a rule node of no premises as its root.
    fn close(mut self, name: &str) -> Shape {
        if self.w.m.is_none() {
            self.end_obligation();
        }
        let root = self.w.push(self.rule(), 0, 0, 0);
        self.files(name, root)
    }

    fn files(self, name: &str, root: u32) -> Shape {
        let (obligation, second) = self.w.files(self.head, self.goal, root);
        Shape {
            name: format!("{name}, {:?}", self.kind).to_lowercase(),
            kind: self.kind,
            obligation,
            second,
        }
    }

    fn constant(&mut self, ty: u32) -> u32 {
        self.names += 1;
        let name = format!("k{}", self.names);
        let name = self.w.name(name.as_bytes());
        self.w.push(CONSTANT, ty, name, 0)
    }

    /// A type, doubled as a pair type so often.
    fn doubled_type(&mut self, ty: u32, times: u32) -> u32 {
        (0..times).fold(ty, |ty, _| self.w.push(PAIR_TYPE, ty, ty, 0))
    }

    /// A type, nested as a set type so often.
    fn nested_type(&mut self, ty: u32, times: u32) -> u32 {
        (0..times).fold(ty, |ty, _| self.w.push(SET_TYPE, ty, 0, 0))
    }

    /// A pair type of the two types before, so often: its weight grows as the Fibonacci numbers do.
    fn fibonacci_type(&mut self, ty: u32, times: u32) -> u32 {
        let pair = (0..times).fold((ty, ty), |(x, y), _| (y, self.w.push(PAIR_TYPE, x, y, 0)));
        pair.1
    }

    /// A function of one type parameter whose five types `grown` makes of the type variable, its own type as place 0,
    /// applied up to the file's end to copies of these types with the given type put in.
    fn applied(&mut self, grown: impl Fn(&mut Sheet, u32, u32) -> u32) {
        let given = self.given;
        let variable = self.w.push(TYPE_VARIABLE, 0, 0, 0);
        let signature = [0, 1, 2, 3, 4].map(|place| grown(self, variable, place));
        let copies = [0, 1, 2, 3, 4].map(|place| grown(self, given, place));
        let types = self.w.chain(&signature);
        let own = self.w.chain(&[copies[0], given]);
        let arguments = [1, 2, 3, 4].map(|place| self.constant(copies[place]));
        let arguments = self.w.chain(&arguments);
        let name = self.w.name(b"f");
        let f = self.w.push(FUNCTION, types, 1, name);
        while self.is_before(self.end(1)) {
            self.w.push(APPLICATION, f, own, arguments);
        }
    }

    /// A formula, doubled as a conjunction so often.
    fn doubled(&mut self, formula: u32, times: u32) -> u32 {
        (0..times).fold(formula, |f, _| self.w.push(AND, f, f, 0))
    }

    /// Ordinary formulas, up to the record number; gives back the last closed one.
    fn formulas(&mut self, end: u32) -> u32 {
        let (given, c, s) = (self.given, self.c, self.s);
        let mut last = self.bottom;
        while self.is_before(end - 6) {
            let x = self.w.push(BOUND, 0, given, 0);
            let same = self.w.push(EQUAL, x, c, 0);
            let member = self.w.push(IN, x, s, 0);
            let both = self.w.push(IMPLIES, member, same, 0);
            last = self.w.push(ALL, given, both, 0);
            last = self.w.push(NOT, last, 0, 0);
        }
        last
    }

    /// Rule nodes, each with a formula as its part and the one before as its premise.
    fn nodes(&mut self, end: u32) -> u32 {
        let (rule, given, c) = (self.rule(), self.given, self.c);
        let mut root = self.w.push(rule, 0, 0, 0);
        while self.is_before(end - 6) {
            let x = self.w.push(BOUND, 0, given, 0);
            let same = self.w.push(EQUAL, x, c, 0);
            let all = self.w.push(ALL, given, same, 0);
            let parts = self.w.push(LINK, all, 0, 0);
            let premises = self.w.push(LINK, root, 0, 0);
            root = self.w.push(rule, parts, premises, 0);
        }
        root
    }
}

/// A full obligation with a proof or derivation of one node.
pub fn obligation(kind: Second) -> Shape {
    let mut sheet = Sheet::new(kind);
    let last = sheet.formulas(MOST_OBLIGATION - 40);
    sheet.head = sheet.w.chain(&[last; 20]);
    sheet.formulas(MOST_OBLIGATION);
    sheet.close("ordinary, full obligation")
}

/// Both files full: half formulas, half rule nodes.
pub fn ordinary(kind: Second) -> Shape {
    let mut sheet = Sheet::new(kind);
    sheet.formulas(MOST_OBLIGATION);
    sheet.end_obligation();
    let end = sheet.end(0);
    sheet.formulas(end / 2);
    let root = sheet.nodes(end);
    sheet.files("ordinary, both full", root)
}

/// Two copies of a type at the weight limit, compared by every later = record.
pub fn equal_types(kind: Second) -> Shape {
    let mut sheet = Sheet::new(kind);
    sheet.end_obligation();
    let given = sheet.given;
    let sides = [0; 2].map(|_| sheet.doubled_type(given, 11));
    let sides = sides.map(|ty| sheet.constant(ty));
    while sheet.is_before(sheet.end(1)) {
        sheet.w.push(EQUAL, sides[0], sides[1], 0);
    }
    sheet.close("(a) = of two heavy types")
}

/// The same, in the obligation.
pub fn equal_types_first(kind: Second) -> Shape {
    let mut sheet = Sheet::new(kind);
    let given = sheet.given;
    let sides = [0; 2].map(|_| sheet.doubled_type(given, 11));
    let sides = sides.map(|ty| sheet.constant(ty));
    while sheet.is_before(MOST_OBLIGATION) {
        sheet.w.push(EQUAL, sides[0], sides[1], 0);
    }
    sheet.close("(a) the same in the obligation")
}

/// Two copies that differ in their last leaf, as the sides of a ∈: the first such record is refused.
pub fn unequal_types(kind: Second) -> Shape {
    let mut sheet = Sheet::new(kind);
    sheet.end_obligation();
    let given = sheet.given;
    let left = sheet.doubled_type(given, 11);
    let right = (1..11).fold(sheet.w.push(SET_TYPE, given, 0, 0), |last, level| {
        let side = left - 11 + level;
        sheet.w.push(PAIR_TYPE, side, last, 0)
    });
    let sides = [left, right].map(|ty| sheet.constant(ty));
    let end = sheet.end(2);
    sheet.formulas(end);
    sheet.w.push(EQUAL, sides[0], sides[1], 0);
    sheet.close("(a) last = of unequal types")
}

/// Choices whose heavy own type is a copy of the type of their set's elements.
pub fn heavy_choices(kind: Second) -> Shape {
    let mut sheet = Sheet::new(kind);
    sheet.end_obligation();
    let given = sheet.given;
    let [elements, own] = [0; 2].map(|_| sheet.doubled_type(given, 10));
    let set = sheet.w.push(SET_TYPE, elements, 0, 0);
    let s = sheet.constant(set);
    while sheet.is_before(sheet.end(1)) {
        sheet.w.push(CHOICE, s, own, 0);
    }
    sheet.close("(a) choices of a heavy own type")
}

/// Applications to four arguments, each of a heavy type that is a copy of the signature's.
pub fn applications(kind: Second) -> Shape {
    let mut sheet = Sheet::new(kind);
    sheet.end_obligation();
    let given = sheet.given;
    let wanted = sheet.doubled_type(given, 11);
    let types = sheet.w.chain(&[given, wanted, wanted, wanted, wanted]);
    let own = sheet.w.chain(&[given]);
    let arguments = [0; 4].map(|_| {
        let ty = sheet.doubled_type(given, 11);
        sheet.constant(ty)
    });
    let arguments = sheet.w.chain(&arguments);
    let name = sheet.w.name(b"f");
    let f = sheet.w.push(FUNCTION, types, 0, name);
    while sheet.is_before(sheet.end(1)) {
        sheet.w.push(APPLICATION, f, own, arguments);
    }
    sheet.close("(b) application, 4 heavy arguments")
}

/// The same with half of each type put in for a type parameter.
pub fn type_arguments(kind: Second) -> Shape {
    let mut sheet = Sheet::new(kind);
    sheet.end_obligation();
    let given = sheet.given;
    let signature = [0, 1, 2, 3].map(|number| {
        let variable = sheet.w.push(TYPE_VARIABLE, number, 0, 0);
        sheet.doubled_type(variable, 2)
    });
    let put_in = [0; 4].map(|_| sheet.doubled_type(given, 8));
    let arguments = [0; 4].map(|_| {
        let ty = sheet.doubled_type(given, 10);
        sheet.constant(ty)
    });
    let types = sheet.w.chain(&[&[given], &signature[..]].concat());
    let own = sheet.w.chain(&[&[given], &put_in[..]].concat());
    let arguments = sheet.w.chain(&arguments);
    let name = sheet.w.name(b"f");
    let f = sheet.w.push(FUNCTION, types, 4, name);
    while sheet.is_before(sheet.end(1)) {
        sheet.w.push(APPLICATION, f, own, arguments);
    }
    sheet.close("(b) application, 4 type arguments")
}

/// The same with five types that are a type parameter doubled up to the weight limit.
pub fn doubled_parameters(kind: Second) -> Shape {
    let mut sheet = Sheet::new(kind);
    sheet.end_obligation();
    sheet.applied(|sheet, ty, place| sheet.doubled_type(ty, if place == 0 { 10 } else { 11 }));
    sheet.close("(b) application, 5 types of a doubled parameter")
}

/// The same with types that share two parts, in the way of the Fibonacci numbers.
pub fn fibonacci_parameters(kind: Second) -> Shape {
    let mut sheet = Sheet::new(kind);
    sheet.end_obligation();
    sheet.applied(|sheet, ty, _| sheet.fibonacci_type(ty, 15));
    sheet.close("(b) application, 5 types of a Fibonacci parameter")
}

/// The same with long types: as many records in a signature, and as many applications of it, as a file has room for.
pub fn nested_parameters(kind: Second) -> Shape {
    let mut sheet = Sheet::new(kind);
    sheet.end_obligation();
    sheet.applied(|sheet, ty, _| sheet.nested_type(ty, 150));
    sheet.close("(b) application, 5 types of a nested parameter")
}

/// Functions of five types at the weight limit.
pub fn functions(kind: Second) -> Shape {
    let mut sheet = Sheet::new(kind);
    sheet.end_obligation();
    let variable = sheet.w.push(TYPE_VARIABLE, 0, 0, 0);
    let types = [0; 5].map(|_| sheet.doubled_type(variable, 11));
    let types = sheet.w.chain(&types);
    for number in 0..1_500 {
        if !sheet.is_before(sheet.end(4)) {
            break;
        }
        let name = sheet.w.name(format!("f{number}").as_bytes());
        sheet.w.push(FUNCTION, types, 1, name);
    }
    sheet.close("(b) functions of 5 heavy types")
}

/// A type nested 1,400 deep, compared with a copy.
pub fn deep_types(kind: Second) -> Shape {
    let mut sheet = Sheet::new(kind);
    sheet.end_obligation();
    let given = sheet.given;
    let variable = sheet.w.push(TYPE_VARIABLE, 0, 0, 0);
    let wanted = sheet.nested_type(variable, 1_400);
    let copy = sheet.nested_type(given, 1_400);
    let types = sheet.w.chain(&[wanted]);
    let own = sheet.w.chain(&[copy, given]);
    let name = sheet.w.name(b"f");
    let f = sheet.w.push(FUNCTION, types, 1, name);
    while sheet.is_before(sheet.end(1)) {
        sheet.w.push(APPLICATION, f, own, 0);
    }
    sheet.close("(b) application, a type nested 1,400 deep")
}

/// Type variables whose numbers, out of range, all fall into one bucket of the table of equal trees: the first is refused.
pub fn one_bucket(kind: Second) -> Shape {
    let mut sheet = Sheet::new(kind);
    sheet.end_obligation();
    let mut number = 0;
    while sheet.is_before(sheet.end(1)) {
        number += 1;
        sheet.w.push(TYPE_VARIABLE, number << 20, 0, 0);
    }
    sheet.close("(g) type variables in one bucket")
}

/// Constants whose names share their first seven bytes; the last name records are shared.
pub fn names(kind: Second, most: u32) -> Shape {
    let mut sheet = Sheet::new(kind);
    sheet.end_obligation();
    let (given, end) = (sheet.given, sheet.end(1));
    let mut symbols = 0;
    for number in 0.. {
        let tail = sheet.w.name(format!("{number}").as_bytes());
        for &letter in LETTERS {
            if symbols == most || !sheet.is_before(end - 2) {
                return sheet.close(&format!("(c) {symbols} names, 7 bytes alike"));
            }
            let word = u32::from_le_bytes([b'a', b'a', b'a', letter]);
            let name = sheet.w.push(NAME, 0x6161_6161, word, tail);
            sheet.w.push(CONSTANT, given, name, 0);
            symbols += 1;
        }
    }
    unreachable!("the file ends")
}

/// Symbols of both sorts whose names have 32 bytes and share the first 24 of them.
pub fn long_names(kind: Second, most: u32) -> Shape {
    let mut sheet = Sheet::new(kind);
    sheet.end_obligation();
    let (given, end) = (sheet.given, sheet.end(1));
    let mut symbols = 0;
    while symbols < most && sheet.is_before(end - 6) {
        let name = format!("{}{symbols:08}", "a".repeat(24));
        let name = sheet.w.name(name.as_bytes());
        sheet.w.push(CONSTANT, given, name, 0);
        sheet.w.push(GIVEN, name, 0, 0);
        symbols += 1;
    }
    sheet.close(&format!("(c) {symbols} names twice, 24 bytes alike"))
}

/// Constants whose names have 32 bytes and share the last 28 of them, so that their keys differ in the highest bits only.
pub fn shared_tails(kind: Second, most: u32) -> Shape {
    let mut sheet = Sheet::new(kind);
    sheet.end_obligation();
    let (given, end) = (sheet.given, sheet.end(1));
    let tail = sheet.w.name("a".repeat(24).as_bytes());
    let letters = 52;
    let mut symbols = 0;
    while symbols < most && sheet.is_before(end - 2) {
        let letter = |place| LETTERS[(symbols / u32::pow(letters, place) % letters) as usize];
        let word = u32::from_le_bytes([letter(0), letter(1), letter(2), letter(3)]);
        let name = sheet.w.push(NAME, word, 0x6161_6161, tail);
        sheet.w.push(CONSTANT, given, name, 0);
        symbols += 1;
    }
    sheet.close(&format!("(c) {symbols} names, the last 28 bytes alike"))
}

/// Constants whose names have ten letters with a mark each, 30 bytes, and are told apart by the last of them.
pub fn marked_names(kind: Second, most: u32) -> Shape {
    const MARKED: [&str; 5] = ["a\u{301}", "e\u{301}", "i\u{301}", "o\u{301}", "u\u{301}"];
    let mut sheet = Sheet::new(kind);
    sheet.end_obligation();
    let (given, end) = (sheet.given, sheet.end(1));
    let mut symbols = 0;
    while symbols < most && sheet.is_before(end - 5) {
        let letter = |place| MARKED[(symbols / u32::pow(5, place) % 5) as usize];
        let name: String = (0..10).rev().map(letter).collect();
        let name = sheet.w.name(name.as_bytes());
        sheet.w.push(CONSTANT, given, name, 0);
        symbols += 1;
    }
    sheet.close(&format!("(c) {symbols} names of 10 marked letters"))
}

/// Many distinct names, then the first one again.
pub fn name_taken(kind: Second, most: u32) -> Shape {
    let mut sheet = Sheet::new(kind);
    sheet.end_obligation();
    let (given, end) = (sheet.given, sheet.end(1));
    let first = sheet.w.name(b"n0");
    sheet.w.push(CONSTANT, given, first, 0);
    let mut symbols = 1;
    while symbols < most && sheet.is_before(end - 4) {
        let name = sheet.w.name(format!("n{symbols}").as_bytes());
        sheet.w.push(CONSTANT, given, name, 0);
        symbols += 1;
    }
    sheet.w.push(CONSTANT, given, first, 0);
    sheet.close(&format!("(c) {symbols} names, the first taken again"))
}

/// A long premise chain that very many rule nodes share.
pub fn shared_premises(kind: Second, items_are_nodes: bool) -> Shape {
    let mut sheet = Sheet::new(kind);
    sheet.end_obligation();
    let (rule, bottom) = (sheet.rule(), sheet.bottom);
    let first = sheet.w.count();
    let links = most_records(kind) * 3 / 10;
    let node = sheet.w.push(rule, 0, 0, 0);
    let mut chain = 0;
    for _ in 0..links {
        let item = if items_are_nodes { node } else { bottom };
        chain = sheet.w.push(LINK, item, 0, chain);
    }
    let mut root = first + 1;
    while sheet.is_before(sheet.end(0)) {
        root = sheet.w.push(rule, 0, chain, 0);
    }
    let what = match items_are_nodes {
        true => "of one node",
        false => "of no nodes",
    };
    sheet.files(&format!("(d) {links} premises {what}, shared"), root)
}

/// The last node of a long line of nodes, each well named, is the one that no chain names.
pub fn last_unnamed(kind: Second) -> Shape {
    let mut sheet = Sheet::new(kind);
    sheet.end_obligation();
    let rule = sheet.rule();
    let mut root = sheet.w.push(rule, 0, 0, 0);
    while sheet.is_before(sheet.end(3)) {
        let premises = sheet.w.push(LINK, root, 0, 0);
        root = sheet.w.push(rule, 0, premises, 0);
    }
    sheet.w.push(rule, 0, 0, 0);
    sheet.files("(d) last node unnamed", root)
}

/// A long chain of types that an application uses at the end.
pub fn type_chain(kind: Second) -> Shape {
    let mut sheet = Sheet::new(kind);
    sheet.end_obligation();
    let given = sheet.given;
    let types = sheet.w.chain(&[given]);
    let name = sheet.w.name(b"f");
    let f = sheet.w.push(FUNCTION, types, 0, name);
    let mut chain = 0;
    while sheet.is_before(sheet.end(2)) {
        chain = sheet.w.push(LINK, given, 0, chain);
    }
    sheet.w.push(APPLICATION, f, chain, 0);
    sheet.close("(e) long chain of types, one use")
}

/// A long name chain that a symbol uses at the end.
pub fn name_chain(kind: Second) -> Shape {
    let mut sheet = Sheet::new(kind);
    sheet.end_obligation();
    let given = sheet.given;
    let mut chain = 0;
    while sheet.is_before(sheet.end(2)) {
        chain = sheet.w.push(NAME, 0x6161_6161, 0x6161_6161, chain);
    }
    sheet.w.push(CONSTANT, given, chain, 0);
    sheet.close("(e) long name, one use")
}

/// Formulas at the weight limit, their conjunctions shared all the way down.
pub fn heavy_formulas(kind: Second) -> Shape {
    let mut sheet = Sheet::new(kind);
    sheet.end_obligation();
    let bottom = sheet.bottom;
    let times = match kind {
        Second::Proof => 11,
        Second::Derivation => 13,
    };
    while sheet.is_before(sheet.end(times + 2)) {
        let heavy = sheet.doubled(bottom, times);
        sheet.w.push(NOT, heavy, 0, 0);
    }
    sheet.close("(f) heavy formulas")
}

/// ∀ over one heavy formula full of variables that it binds.
pub fn heavy_bodies(kind: Second) -> Shape {
    let mut sheet = Sheet::new(kind);
    sheet.end_obligation();
    let (given, c) = (sheet.given, sheet.c);
    let x = sheet.w.push(BOUND, 0, given, 0);
    let same = sheet.w.push(EQUAL, x, c, 0);
    let times = match kind {
        Second::Proof => 9,
        Second::Derivation => 11,
    };
    let body = sheet.doubled(same, times);
    while sheet.is_before(sheet.end(1)) {
        sheet.w.push(ALL, given, body, 0);
    }
    sheet.close("(f) ∀ over one heavy formula")
}

/// ∀ whose bound variables bear a copy of its heavy type.
pub fn heavy_binders(kind: Second) -> Shape {
    let mut sheet = Sheet::new(kind);
    sheet.end_obligation();
    let (given, bottom) = (sheet.given, sheet.bottom);
    let bound = sheet.doubled_type(given, 5);
    let borne = sheet.doubled_type(given, 5);
    let x = sheet.w.push(BOUND, 0, borne, 0);
    let same = sheet.w.push(EQUAL, x, x, 0);
    let both = sheet.w.push(AND, same, bottom, 0);
    let body = sheet.doubled(both, 4);
    while sheet.is_before(sheet.end(1)) {
        sheet.w.push(ALL, bound, body, 0);
    }
    sheet.close("(f) ∀ whose variables bear a copy")
}

/// ∀ over 800 choices one within the other, about the variable that it binds.
pub fn deep_choices(kind: Second) -> Shape {
    let mut sheet = Sheet::new(kind);
    sheet.end_obligation();
    let (given, c) = (sheet.given, sheet.c);
    let set = sheet.w.push(SET_TYPE, given, 0, 0);
    let types = sheet.w.chain(&[set, given]);
    let name = sheet.w.name(b"f");
    let f = sheet.w.push(FUNCTION, types, 0, name);
    let own = sheet.w.chain(&[set]);
    let x = sheet.w.push(BOUND, 0, given, 0);
    let term = (0..800).fold(x, |term, _| {
        let arguments = sheet.w.push(LINK, term, 0, 0);
        let s = sheet.w.push(APPLICATION, f, own, arguments);
        sheet.w.push(CHOICE, s, given, 0)
    });
    let body = sheet.w.push(EQUAL, term, c, 0);
    while sheet.is_before(sheet.end(1)) {
        sheet.w.push(ALL, given, body, 0);
    }
    sheet.close("(f) ∀ over deep choices")
}

/// 63 binders around a heavy formula, over and over.
pub fn deep_binders(kind: Second) -> Shape {
    let mut sheet = Sheet::new(kind);
    sheet.end_obligation();
    let (given, c) = (sheet.given, sheet.c);
    let mut body = sheet.bottom;
    for index in 0..64 {
        let x = sheet.w.push(BOUND, index, given, 0);
        let same = sheet.w.push(EQUAL, x, c, 0);
        body = sheet.w.push(AND, same, body, 0);
    }
    let body = sheet.doubled(body, 3);
    while sheet.is_before(sheet.end(65)) {
        (0..64).fold(body, |f, _| sheet.w.push(ALL, given, f, 0));
    }
    sheet.close("(f) 64 binders over a heavy formula")
}

/// 256 heavy hypotheses and a heavy goal, all to be found closed.
pub fn heavy_hypotheses(kind: Second) -> Shape {
    let mut sheet = Sheet::new(kind);
    let (given, c) = (sheet.given, sheet.c);
    let x = sheet.w.push(BOUND, 0, given, 0);
    let same = sheet.w.push(EQUAL, x, c, 0);
    let body = sheet.doubled(same, 9);
    let all = sheet.w.push(ALL, given, body, 0);
    sheet.goal = sheet.w.push(NOT, all, 0, 0);
    for _ in 0..256 {
        let hypothesis = sheet.w.push(ALL_TYPES, 4, all, 0);
        sheet.head = sheet.w.push(LINK, hypothesis, 0, sheet.head);
    }
    sheet.close("(f) 256 heavy hypotheses")
}

/// All shapes that are measured for one kind of second file, with at most so many symbols.
pub fn shapes(kind: Second, symbols: u32) -> Vec<Shape> {
    let makers: [fn(Second) -> Shape; 22] = [
        obligation,
        ordinary,
        equal_types,
        equal_types_first,
        unequal_types,
        heavy_choices,
        applications,
        type_arguments,
        doubled_parameters,
        fibonacci_parameters,
        nested_parameters,
        functions,
        deep_types,
        one_bucket,
        last_unnamed,
        type_chain,
        name_chain,
        heavy_formulas,
        heavy_bodies,
        heavy_binders,
        deep_choices,
        deep_binders,
    ];
    let mut list: Vec<Shape> = makers.iter().map(|make| make(kind)).collect();
    list.push(heavy_hypotheses(kind));
    list.extend([false, true].map(|nodes| shared_premises(kind, nodes)));
    list.push(names(kind, symbols));
    list.push(long_names(kind, symbols / 2));
    list.push(shared_tails(kind, symbols));
    list.push(marked_names(kind, symbols));
    list.extend(
        [false, true].map(|accented| buckets::names_in_one_bucket(kind, symbols, accented)),
    );
    list.push(name_taken(kind, symbols));
    list.sort_by(|x, y| x.name.cmp(&y.name));
    list
}
