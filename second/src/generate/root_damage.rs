//! Damage to what the headers name: hypotheses, goal and root.

use super::choices::chosen_is_itself;
use super::gadgets::Bench;
use super::rng::Rng;
use crate::kinds::*;

/// Damage to what the headers name.
#[derive(Clone, Copy, Debug)]
pub enum RootDamage {
    Goal(usize),
    Chain(usize),
    Hypothesis(usize),
    Root(usize),
    Many(usize),
}

impl RootDamage {
    pub fn random(rng: &mut Rng) -> RootDamage {
        match rng.below(12) {
            0..=2 => RootDamage::Goal(rng.below(ODD_GOALS)),
            3 => RootDamage::Chain(rng.below(4)),
            4..=7 => RootDamage::Hypothesis(rng.below(ODD_HYPOTHESES)),
            8..=10 => RootDamage::Root(rng.below(7)),
            _ => RootDamage::Many(*rng.pick(&[255, 256, 257, 258, 300])),
        }
    }
}

pub const ODD_HYPOTHESES: usize = 24;
const ODD_GOALS: usize = 11;

/// An item for the hypothesis chain; 11 if it is none that may stand there.
pub fn odd_hypothesis(b: &mut Bench, which: usize) -> (u32, u64) {
    let ty = b.given();
    let v = b.push(TYPE_VARIABLE, 1, 0, 0);
    let x = b.push(BOUND, 0, ty, 0);
    let open = b.push(EQUAL, x, x, 0);
    let f = b.bottom();
    let implied = b.push(IMPLIES, f, f, 0);
    let over_v = b.push(ALL, v, implied, 0);
    match which {
        0 => (ty, 11),
        1 => (b.constant(ty), 11),
        2 => (b.w.chain(&[implied]), 11),
        3 => (b.fresh_name(), 11),
        4 => (b.function(&[ty], 0), 11),
        5 => (open, 11),
        6 => (over_v, 11),
        7 => (b.push(ALL_TYPES, 1, over_v, 0), 11),
        8 => (b.push(ALL_TYPES, 2, open, 0), 11),
        9 => (b.push(ALL, ty, open, 0), 0),
        10 => (b.push(ALL_TYPES, 2, over_v, 0), 0),
        11 => (b.push(ALL_TYPES, 4, over_v, 0), 0),
        12 => (b.push(ALL_TYPES, 3, implied, 0), 0),
        13 => {
            let y = b.push(BOUND, 1, ty, 0);
            let about_y = b.push(EQUAL, y, y, 0);
            (b.push(ALL, ty, about_y, 0), 11)
        }
        14 => {
            // The variable is in a type argument only.
            let function = b.function(&[ty], 1);
            let t = b.application(function, &[ty, v], &[]);
            (b.push(EQUAL, t, t, 0), 11)
        }
        15 => (implied, 0),
        _ => about_choices(b, which - 16),
    }
}

/// The same with choices: what is unbound is so beneath a choice only.
fn about_choices(b: &mut Bench, which: usize) -> (u32, u64) {
    let ty = b.given();
    let set = b.push(SET_TYPE, ty, 0, 0);
    let v = b.push(TYPE_VARIABLE, 1, 0, 0);
    let set_v = b.push(SET_TYPE, v, 0, 0);
    match which {
        0 => (chosen_is_itself(b, 0, set, ty), 11),
        1 => {
            let open = chosen_is_itself(b, 1, set, ty);
            (b.push(ALL, set, open, 0), 11)
        }
        2 => {
            let open = chosen_is_itself(b, 0, set, ty);
            (b.push(ALL, set, open, 0), 0)
        }
        3 => (b.sample(CHOICE), 11),
        4 => {
            // The variable is in a type argument only.
            let function = b.function(&[set], 1);
            let s = b.application(function, &[set, v], &[]);
            let chosen = b.push(CHOICE, s, ty, 0);
            (b.push(EQUAL, chosen, chosen, 0), 11)
        }
        _ => {
            let open = chosen_is_itself(b, 0, set_v, v);
            let over_v = b.push(ALL, set_v, open, 0);
            match which {
                5 => (over_v, 11),
                6 => (b.push(ALL_TYPES, 1, over_v, 0), 11),
                _ => (b.push(ALL_TYPES, 2, over_v, 0), 0),
            }
        }
    }
}

/// A record for the header's goal that is refused there.
pub fn odd_goal(b: &mut Bench, which: usize) -> u32 {
    let ty = b.given();
    let v = b.push(TYPE_VARIABLE, 0, 0, 0);
    let f = b.bottom();
    let (x, over_v) = (b.push(BOUND, 0, ty, 0), b.push(ALL, v, f, 0));
    let open = b.push(EQUAL, x, x, 0);
    match which {
        0 => 0,
        1 => b.w.count() + 1 + b.rng.below(1_000) as u32,
        2 => b.rng.word() | 1 << 31,
        3 => f,
        4 => b.push(NOT, open, 0, 0),
        5 => b.push(NOT, over_v, 0, 0),
        6 => b.push(ALL_TYPES, 1, f, 0),
        7 => b.push(TOP, 0, 0, 0),
        8 => b.sample(CHOICE),
        _ => {
            // Unbound beneath a choice: an index, or a type variable.
            let ty = if which == 9 { ty } else { v };
            let set = b.push(SET_TYPE, ty, 0, 0);
            let mut open = chosen_is_itself(b, 0, set, ty);
            if which != 9 {
                open = b.push(ALL, set, open, 0);
            }
            b.push(NOT, open, 0, 0)
        }
    }
}
