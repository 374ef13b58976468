//! Damage to the bytes of written files: lengths, headers, words.

use super::choices::NO_KINDS;
use super::expect::Expect;
use super::rng::Rng;
use crate::kinds::*;
use crate::reader::Second;

/// Damage to the bytes of a file: its length or its header.
pub fn bytes_damage(
    rng: &mut Rng,
    obligation: &mut Vec<u8>,
    second: &mut Vec<u8>,
    most: usize,
) -> Expect {
    let first = rng.chance(40);
    let (file, limit) = match first {
        true => (obligation, 1_024),
        false => (second, most),
    };
    match rng.below(12) {
        0 => file.clear(),
        1 => file.truncate(rng.below(16)),
        2 => {
            let keep = file.len() - 1 - rng.below(15);
            file.truncate(keep);
        }
        3 => file.extend(vec![0; rng.range(1, 15)]),
        4 if limit < 10_000 => file.resize(16 * (limit + 1 + rng.below(3)), 0),
        5 => {
            // Whole records short or long: the count is wrong.
            let records = file.len() / 16;
            let keep = rng.range(1, records);
            file.truncate(16 * keep.min(records - 1).max(1));
            return match file.len() / 16 < records {
                true => Expect::Refusal(2),
                false => Expect::Any,
            };
        }
        6 => {
            file.extend(vec![0; 16]);
            return match file.len() / 16 > limit {
                true => Expect::Refusal(1),
                false => Expect::Refusal(2),
            };
        }
        7 => {
            let value = *rng.pick(&[0, 2, 3, 257, 1 << 24, u32::MAX]);
            set_word(file, 0, value);
            return Expect::Refusal(2);
        }
        8 | 9 => {
            let count = word_at(file, 1);
            let value = *rng.pick(&[
                count + 1,
                count.wrapping_sub(1),
                0,
                count ^ 1 << 16,
                count ^ 1 << 31,
                u32::MAX,
            ]);
            set_word(file, 1, value);
            return if value == count {
                Expect::Any
            } else {
                Expect::Refusal(2)
            };
        }
        _ if !first => {
            let m = word_at(file, 3);
            let value = *rng.pick(&[m + 1, m.wrapping_sub(1), 0, m ^ 1 << 20, u32::MAX]);
            set_word(file, 3, value);
            return if value == m {
                Expect::Any
            } else {
                Expect::Refusal(2)
            };
        }
        _ => {
            let value = rng.word();
            let word = rng.range(2, 3);
            set_word(file, word, value);
            return Expect::Any;
        }
    }
    Expect::Refusal(1)
}

pub fn word_at(file: &[u8], word: usize) -> u32 {
    let mut four = [0; 4];
    four.copy_from_slice(&file[4 * word..4 * word + 4]);
    u32::from_le_bytes(four)
}

pub fn set_word(file: &mut [u8], word: usize, value: u32) {
    file[4 * word..4 * word + 4].copy_from_slice(&value.to_le_bytes());
}

/// One or a few words of the records changed without regard to their sense.
pub fn word_damage(rng: &mut Rng, obligation: &mut [u8], second: &mut [u8]) {
    let m = (obligation.len() / 16 - 1) as u32;
    let all = m + (second.len() / 16 - 1) as u32;
    let times = *rng.pick(&[1, 1, 1, 1, 2, 3]);
    for _ in 0..times {
        let first = rng.chance(30);
        let (file, base) = match first {
            true => (&mut *obligation, 0),
            false => (&mut *second, m),
        };
        let records = file.len() / 16;
        let record = match rng.chance(95) {
            true if records > 1 => rng.range(1, records - 1),
            _ => 0,
        };
        let word = 4 * record + *rng.pick(&[0, 1, 1, 1, 2, 2, 2, 3, 3]);
        let number = base + record as u32;
        let before = word_at(file, word);
        let of_name = word_at(file, 4 * record) == NAME && (1..=2).contains(&(word % 4));
        let value = match rng.below(12) {
            0 => 0,
            1 => before.wrapping_add(1),
            2 => before.wrapping_sub(1),
            3 => number,
            4 => number + 1,
            5 => before ^ 1 << rng.below(32),
            6 => rng.word(),
            7 if word.is_multiple_of(4) => rng.range(1, 80) as u32,
            7..=10 if of_name => with_byte(rng, before),
            _ => rng.range(1, all.max(1) as usize) as u32,
        };
        set_word(file, word, value);
    }
}

/// One word of any choice changed, whether another record names it or not; None if there is no choice.
pub fn choice_damage(
    rng: &mut Rng,
    kind: Second,
    obligation: &mut [u8],
    second: &mut [u8],
) -> Option<Expect> {
    let m = (obligation.len() / 16 - 1) as u32;
    let choices = |file: &[u8]| -> Vec<usize> {
        let records = 1..file.len() / 16;
        records.filter(|r| word_at(file, 4 * r) == CHOICE).collect()
    };
    let (first, last) = (choices(obligation), choices(second));
    let in_first = last.is_empty() || (!first.is_empty() && rng.chance(40));
    let (file, list, base) = match in_first {
        true => (obligation, first, 0),
        false => (second, last, m),
    };
    if list.is_empty() {
        return None;
    }
    let record = *rng.pick(&list);
    let typed = in_first || kind == Second::Proof;
    Some(damage_choice(rng, file, record, base, typed))
}

fn damage_choice(rng: &mut Rng, file: &mut [u8], record: usize, base: u32, typed: bool) -> Expect {
    let number = base + record as u32;
    let [s, own] = [1, 2].map(|word| word_at(file, 4 * record + word));
    let any_smaller = rng.range(1, number as usize - 1) as u32;
    let not_smaller = *rng.pick(&[0, number, number + 1, number ^ 1 << 31]);
    let no_kind = *rng.pick(&NO_KINDS);
    let (word, value, expect) = match rng.below(9) {
        0 => (0, no_kind, Expect::Refusal(3)),
        1 => (3, *rng.pick(&[1, s, own, number]), Expect::Refusal(4)),
        2 => (1, not_smaller, Expect::Refusal(5)),
        3 => (2, not_smaller, Expect::Refusal(5)),
        4 => (1, own, Expect::Refusal(5)),
        5 => (2, s, Expect::Refusal(5)),
        // A powerset of the same set has another own type.
        6 if typed => (0, POWERSET, Expect::Refusal(10)),
        6 => (0, POWERSET, Expect::Any),
        7 => (1, any_smaller, Expect::Any),
        _ => (2, any_smaller, Expect::Any),
    };
    set_word(file, 4 * record + word, value);
    expect
}

/// One byte of a name's word becomes another that names are made of, or nearly.
fn with_byte(rng: &mut Rng, word: u32) -> u32 {
    let list = b"AENacensuyz09_\xC3\xCC\xCC\x80\x81\x82\x83\x84\x88\x8A\xA7\xA8\xBF\0";
    let mut bytes = word.to_le_bytes();
    bytes[rng.below(4)] = *rng.pick(list);
    u32::from_le_bytes(bytes)
}

/// One type that a record names becomes another type record.
pub fn type_damage(rng: &mut Rng, second: &mut [u8], m: u32, obligation: &[u8]) -> bool {
    let kind_of = |second: &[u8], number: u32| match number <= m {
        true => word_at(obligation, 4 * number as usize),
        false => word_at(second, 4 * (number - m) as usize),
    };
    let count = (second.len() / 16 - 1) as u32;
    let types: Vec<u32> = (1..=m + count)
        .filter(|&r| is_type(kind_of(second, r)))
        .collect();
    let from = rng.below(count.max(1) as usize) as u32;
    for i in 0..count {
        let record = 1 + (from + i) % count;
        let word = match word_at(second, 4 * record as usize) {
            SET_TYPE | PAIR_TYPE | CONSTANT | ALL => 1,
            BOUND | POWERSET | CHOICE => 2,
            PAIR | PRODUCT => 3,
            _ => continue,
        };
        let at = 4 * record as usize + word;
        let before = word_at(second, at);
        let smaller: Vec<u32> = (types.iter().copied())
            .filter(|&ty| ty < m + record && ty != before)
            .collect();
        if !smaller.is_empty() {
            let value = *rng.pick(&smaller);
            set_word(second, at, value);
            return true;
        }
    }
    false
}
