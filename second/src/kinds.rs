//! The kinds of records and their classes.

pub const LINK: u32 = 1;
pub const NAME: u32 = 2;
pub const GIVEN: u32 = 3;
pub const SET_TYPE: u32 = 4;
pub const PAIR_TYPE: u32 = 5;
pub const TYPE_VARIABLE: u32 = 6;
pub const CONSTANT: u32 = 7;
pub const FUNCTION: u32 = 8;
pub const BOUND: u32 = 9;
pub const PAIR: u32 = 10;
pub const PRODUCT: u32 = 11;
pub const POWERSET: u32 = 12;
pub const APPLICATION: u32 = 13;
pub const BOTTOM: u32 = 14;
pub const TOP: u32 = 15;
pub const AND: u32 = 16;
pub const IMPLIES: u32 = 17;
pub const NOT: u32 = 18;
pub const ALL: u32 = 19;
pub const EQUAL: u32 = 20;
pub const IN: u32 = 21;
pub const ALL_TYPES: u32 = 22;
pub const CHOICE: u32 = 23;

pub fn is_proof_rule(kind: u32) -> bool {
    (32..=46).contains(&kind)
}

pub fn is_derivation_rule(kind: u32) -> bool {
    (64..=80).contains(&kind)
}

pub fn is_rule(kind: u32) -> bool {
    is_proof_rule(kind) || is_derivation_rule(kind)
}

pub fn is_type(kind: u32) -> bool {
    (GIVEN..=TYPE_VARIABLE).contains(&kind)
}

pub fn is_term(kind: u32) -> bool {
    kind == CONSTANT || kind == CHOICE || (BOUND..=APPLICATION).contains(&kind)
}

/// A formula in the narrow sense: kind 22 is none, as no record may name it as a formula.
pub fn is_formula(kind: u32) -> bool {
    (BOTTOM..=IN).contains(&kind)
}
