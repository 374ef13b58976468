//! Gadgets for the choice term: its words, references, own type and weight, and what stands around it.

use super::gadgets::{kit, wrong_class, wrong_reference, Bench, Kit};
use crate::kinds::*;

/// No kinds, though next to the choice's.
pub const NO_KINDS: [u32; 8] = [24, 25, 26, 27, 28, 29, 30, 31];

pub fn kind(b: &mut Bench) -> u64 {
    let kind = *b.rng.pick(&NO_KINDS);
    b.again_with(CHOICE, 0, kind);
    3
}

/// The third word set, by chance with a fault of a higher number besides.
pub fn third_word(b: &mut Bench) -> u64 {
    let record = b.sample(CHOICE);
    let mut words = b.w.records[record as usize - 1].words();
    words[3] = match b.choose(5) {
        0 => words[1],
        1 => words[2],
        2 => 1,
        3 => 1 << 31,
        _ => b.rng.word() | 1,
    };
    match b.choose(4) {
        0 => words[1] = 0,
        1 => words.swap(1, 2),
        _ => {}
    }
    b.push(words[0], words[1], words[2], words[3]);
    4
}

pub fn reference(b: &mut Bench) -> u64 {
    let word = b.rng.range(1, 2);
    wrong_reference(b, CHOICE, word, false)
}

pub fn reference_class(b: &mut Bench) -> u64 {
    let word = b.rng.range(1, 2);
    wrong_class(b, CHOICE, word)
}

/// The kit with sets of sets: their type and a constant of it.
fn sets_of(b: &mut Bench) -> (Kit, u32, u32) {
    let k = kit(b);
    let sets = b.push(SET_TYPE, k.set, 0, 0);
    let t = b.constant(sets);
    (k, sets, t)
}

pub fn typing(b: &mut Bench) -> u64 {
    let which = b.choose(WRONG_CHOICES);
    wrong_choice(b, which);
    b.place.typing()
}

pub const WRONG_CHOICES: usize = 15;

/// A choice whose own type is not the element type of its set.
pub fn wrong_choice(b: &mut Bench, which: usize) {
    let (k, sets, t) = sets_of(b);
    let v = b.push(TYPE_VARIABLE, 1, 0, 0);
    let power = b.push(POWERSET, k.s, sets, 0);
    let both = b.push(PAIR, k.c, k.d, k.pairs);
    let x = b.push(BOUND, 2, k.ty, 0);
    let inner = b.push(CHOICE, t, k.set, 0);
    let list: [(u32, u32); WRONG_CHOICES] = [
        (k.s, k.set),
        // A powerset's own type.
        (k.s, sets),
        (k.s, k.other),
        (k.s, k.pairs),
        (k.s, v),
        (k.c, k.ty),
        (k.c, k.set),
        (both, k.ty),
        (both, k.pairs),
        (power, k.ty),
        (power, sets),
        (t, k.ty),
        (x, k.ty),
        (inner, k.set),
        (inner, k.other),
    ];
    let (of, own) = list[which];
    b.push(CHOICE, of, own, 0);
}

pub fn typed(b: &mut Bench) -> u64 {
    let which = b.choose(RIGHT_CHOICES);
    right_choice(b, which);
    0
}

pub const RIGHT_CHOICES: usize = 7;

/// A right choice of some sort of set, the own type often as equal structure in another record.
pub fn right_choice(b: &mut Bench, which: usize) {
    let (k, sets, t) = sets_of(b);
    let set_again = b.push(SET_TYPE, k.ty, 0, 0);
    let v = b.push(TYPE_VARIABLE, 3, 0, 0);
    let v_again = b.push(TYPE_VARIABLE, 3, 0, 0);
    let set_v = b.push(SET_TYPE, v, 0, 0);
    match which {
        0 => b.push(CHOICE, k.s, k.ty, 0),
        1 => {
            let power = b.push(POWERSET, k.s, sets, 0);
            b.push(CHOICE, power, set_again, 0)
        }
        2 => {
            let square = b.push(PAIR_TYPE, k.ty, k.ty, 0);
            let squares = b.push(SET_TYPE, square, 0, 0);
            let square_again = b.push(PAIR_TYPE, k.ty, k.ty, 0);
            let product = b.push(PRODUCT, k.s, k.s, squares);
            b.push(CHOICE, product, square_again, 0)
        }
        3 => {
            let inner = b.push(CHOICE, t, set_again, 0);
            b.push(CHOICE, inner, k.ty, 0)
        }
        4 => {
            let x = b.push(BOUND, 63, set_again, 0);
            b.push(CHOICE, x, k.ty, 0)
        }
        5 => {
            let x = b.push(BOUND, 0, set_v, 0);
            b.push(CHOICE, x, v_again, 0)
        }
        _ => {
            let f = b.function(&[set_v, v], 4);
            let put = [set_again, k.other, k.other, k.other, k.ty];
            let set = b.application(f, &put, &[k.c]);
            b.push(CHOICE, set, k.ty, 0)
        }
    };
}

/// choice(x) = choice(x) for an index x, with the type that x bears and the own type of the choice.
pub fn chosen_is_itself(b: &mut Bench, index: u32, set: u32, own: u32) -> u32 {
    let x = b.push(BOUND, index, set, 0);
    let chosen = b.push(CHOICE, x, own, 0);
    b.push(EQUAL, chosen, chosen, 0)
}

/// ∀ over the type about a variable beneath a choice, under so many further binders.
fn quantified(b: &mut Bench, ty: u32, borne: u32, own: u32, further: u32) -> u32 {
    let same = chosen_is_itself(b, further, borne, own);
    let inner = (0..further).fold(same, |f, _| b.push(ALL, own, f, 0));
    b.push(ALL, ty, inner, 0)
}

pub fn typing_around(b: &mut Bench) -> u64 {
    let (which, further) = (b.choose(WRONG_PLACES), b.choose(4));
    wrong_place(b, which, further as u32);
    b.place.typing()
}

pub const WRONG_PLACES: usize = 17;

/// A right choice in a place of another type; a bound variable within it stands under so many further binders.
pub fn wrong_place(b: &mut Bench, which: usize, further: u32) {
    let (k, sets, t) = sets_of(b);
    let one = b.push(CHOICE, k.s, k.ty, 0);
    let set = b.push(CHOICE, t, k.set, 0);
    match which {
        0 => b.push(EQUAL, one, k.s, 0),
        1 => b.push(EQUAL, k.d, one, 0),
        2 => b.push(EQUAL, one, set, 0),
        3 => b.push(IN, k.c, one, 0),
        4 => b.push(IN, one, one, 0),
        5 => b.push(IN, k.d, set, 0),
        6 => b.push(IN, set, set, 0),
        7 => b.push(IN, one, t, 0),
        8 => b.push(PAIR, k.d, one, k.pairs),
        9 => b.push(PAIR, one, one, k.pairs),
        10 => b.push(PRODUCT, one, one, k.set),
        11 => b.push(PRODUCT, set, set, sets),
        12 => b.push(POWERSET, one, sets, 0),
        13 => b.push(POWERSET, set, k.set, 0),
        14 => quantified(b, k.ty, k.set, k.ty, further),
        15 => quantified(b, sets, k.set, k.ty, further),
        _ => {
            let f = b.function(&[k.ty, k.set], 0);
            b.application(f, &[k.ty], &[one])
        }
    };
}

pub fn typed_around(b: &mut Bench) -> u64 {
    let (which, further) = (b.choose(RIGHT_PLACES), b.choose(4));
    right_place(b, which, further as u32);
    0
}

pub const RIGHT_PLACES: usize = 11;

/// A right choice in a place of its type.
pub fn right_place(b: &mut Bench, which: usize, further: u32) {
    let (k, sets, t) = sets_of(b);
    let one = b.push(CHOICE, k.s, k.ty, 0);
    let set = b.push(CHOICE, t, k.set, 0);
    let v = b.push(TYPE_VARIABLE, 0, 0, 0);
    let set_v = b.push(SET_TYPE, v, 0, 0);
    match which {
        0 => b.push(EQUAL, one, k.c, 0),
        1 => b.push(EQUAL, k.s, set, 0),
        2 => b.push(IN, one, k.s, 0),
        3 => b.push(IN, k.c, set, 0),
        4 => b.push(IN, one, set, 0),
        5 => b.push(IN, set, t, 0),
        6 => b.push(PAIR, one, k.d, k.pairs),
        7 => b.push(POWERSET, set, sets, 0),
        8 => quantified(b, k.set, k.set, k.ty, further),
        9 => {
            let over_v = quantified(b, set_v, set_v, v, further);
            b.push(ALL_TYPES, 1, over_v, 0)
        }
        _ => {
            let f = b.function(&[k.ty, k.ty, k.set], 0);
            b.application(f, &[k.ty], &[one, set])
        }
    };
}

/// A choice about as heavy as one may be.
pub fn weight(b: &mut Bench) -> u64 {
    let most = b.place.most_weight();
    let sort = b.choose(WEIGHT_SORTS);
    let weight = most + 1 - *b.rng.pick(&[0, 0, 1, 1, 2, 3]);
    weigh(b, sort, weight);
    match weight > most {
        true => 7,
        false => 0,
    }
}

pub const WEIGHT_SORTS: usize = 4;

/// A record of the weight: a choice with a heavy own type, one of a heavy set, one of a choice, an equation.
pub fn weigh(b: &mut Bench, sort: usize, weight: u64) {
    if sort == 0 {
        let ty = b.type_of_weight(weight - 2);
        let set = b.push(SET_TYPE, ty, 0, 0);
        let s = b.constant(set);
        b.push(CHOICE, s, ty, 0);
        return;
    }
    let ty = b.given();
    let set = b.push(SET_TYPE, ty, 0, 0);
    let sets = b.push(SET_TYPE, set, 0, 0);
    match sort {
        1 => {
            let s = set_about(b, ty, set, weight - 5);
            b.push(CHOICE, s, ty, 0);
        }
        2 => {
            let s = set_about(b, ty, sets, weight - 9);
            let inner = b.push(CHOICE, s, set, 0);
            b.push(CHOICE, inner, ty, 0);
        }
        _ => {
            let s = set_about(b, ty, set, weight - 7);
            let chosen = b.push(CHOICE, s, ty, 0);
            let c = b.constant(ty);
            b.push(EQUAL, c, chosen, 0);
        }
    }
}

/// A function's value of the own type for a term of the type and of this weight.
fn set_about(b: &mut Bench, ty: u32, own: u32, weight: u64) -> u32 {
    let term = term_of_weight(b, ty, weight);
    let f = b.function(&[own, ty], 0);
    b.application(f, &[own], &[term])
}

/// A term of a given type and of exactly this weight, 1 or more.
fn term_of_weight(b: &mut Bench, ty: u32, weight: u64) -> u32 {
    // Applied to t twice a function makes 2 + 2t, with a type argument 3 + 2t.
    let mut plan = Vec::new();
    let mut left = weight;
    while left > 3 {
        let odd = left % 2;
        plan.push(odd as usize);
        left = (left - 2 - odd) / 2;
    }
    let types = [&[ty][..], &[ty, ty]];
    let start = match left {
        1 => b.constant(ty),
        _ => {
            let parameters = left as usize - 2;
            let f = b.function(&[ty], parameters as u32);
            b.application(f, types[parameters], &[])
        }
    };
    let twice = [0, 1].map(|parameters| b.function(&[ty, ty, ty], parameters));
    let apply = |t, &odd: &usize| b.application(twice[odd], types[odd], &[t, t]);
    plan.iter().rev().fold(start, apply)
}
