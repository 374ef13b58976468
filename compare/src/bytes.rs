//! Byte strings that no writer made: random ones and damaged files.

use second::generate::rng::Rng;
use second::generate::{derivation_case, proof_case, Case};
use second::reader::Second;

const MOST_RAW_BYTES: usize = 600;

pub fn case(kind: Second, seed: u64) -> Case {
    match kind {
        Second::Proof => proof_case(seed),
        Second::Derivation => derivation_case(seed),
    }
}

/// A generated case with both files at most so long; seeds are tried upwards.
pub fn small_case(kind: Second, seed: u64, most: usize) -> Case {
    (0..)
        .map(|more: u64| case(kind, seed + more))
        .find(|case| case.obligation.len() <= most && case.second.len() <= most)
        .expect("some case is small")
}

pub fn random(rng: &mut Rng, most: usize) -> Vec<u8> {
    let length = match rng.chance(50) {
        true => 16 * rng.below(most / 16 + 1),
        false => rng.below(most + 1),
    };
    (0..length).map(|_| rng.next() as u8).collect()
}

/// Random words that are small, after a header that fits: most get past the header.
pub fn random_records(rng: &mut Rng, most: usize, m: Option<u32>) -> Vec<u8> {
    let count = rng.below(most / 16) as u32;
    let first = m.unwrap_or(0);
    let mut words = vec![1, count];
    words.push(rng.below((first + count + 1) as usize) as u32);
    words.push(m.unwrap_or_else(|| rng.below(count as usize + 1) as u32));
    for number in 0..count {
        words.push(rng.range(1, 23) as u32);
        let below = (first + number + 1) as usize;
        words.extend((0..3).map(|_| match rng.chance(50) {
            true => 0,
            false => rng.below(below) as u32,
        }));
    }
    words.into_iter().flat_map(u32::to_le_bytes).collect()
}

/// A few bytes changed, and sometimes some put in, left out or cut off.
pub fn damage(rng: &mut Rng, bytes: &mut Vec<u8>) {
    for _ in 0..rng.below(4) {
        if !bytes.is_empty() {
            let at = rng.below(bytes.len());
            bytes[at] = match rng.chance(50) {
                true => rng.below(48) as u8,
                false => rng.next() as u8,
            };
        }
    }
    match rng.below(6) {
        0 => cut(rng, bytes),
        1 => bytes.insert(rng.below(bytes.len() + 1), rng.next() as u8),
        2 => leave_out_record(rng, bytes),
        _ => {}
    }
}

pub fn cut(rng: &mut Rng, bytes: &mut Vec<u8>) {
    let kept = match rng.chance(50) {
        true => rng.below(bytes.len() / 16 + 1) * 16,
        false => rng.below(bytes.len() + 1),
    };
    bytes.truncate(kept);
}

/// Leaves one record out and lowers the header's count.
fn leave_out_record(rng: &mut Rng, bytes: &mut Vec<u8>) {
    let records = bytes.len() / 16;
    if records < 2 {
        return;
    }
    let at = 16 * rng.range(1, records - 1);
    bytes.drain(at..at + 16);
    bytes[4..8].copy_from_slice(&(records as u32 - 2).to_le_bytes());
}

/// Random files and damaged ones, with what they are.
pub fn raw(kind: Second, seed: u64) -> (&'static str, [Vec<u8>; 2]) {
    let mut rng = Rng::new(seed);
    match rng.below(6) {
        0 => {
            let files = [0; 2].map(|_| random(&mut rng, MOST_RAW_BYTES));
            ("random", files)
        }
        1 => {
            let first = random_records(&mut rng, MOST_RAW_BYTES, None);
            let m = (first.len() / 16 - 1) as u32;
            let second = random_records(&mut rng, MOST_RAW_BYTES, Some(m));
            ("random records", [first, second])
        }
        which => damaged(&mut rng, which, small_case(kind, seed, MOST_RAW_BYTES)),
    }
}

fn damaged(rng: &mut Rng, which: usize, case: Case) -> (&'static str, [Vec<u8>; 2]) {
    let (first, mut second) = (case.obligation, case.second);
    match which {
        2 => ("random second", [first, random(rng, MOST_RAW_BYTES)]),
        3 => {
            let m = (first.len() / 16).saturating_sub(1) as u32;
            let second = random_records(rng, MOST_RAW_BYTES, Some(m));
            ("random second records", [first, second])
        }
        4 => {
            damage(rng, &mut second);
            ("damaged second", [first, second])
        }
        _ => {
            let mut files = [first, second];
            files.iter_mut().for_each(|bytes| damage(rng, bytes));
            ("both damaged", files)
        }
    }
}
