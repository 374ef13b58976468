//! `damaged [N]`: N cases for each question (fewer for the derivation check), as they are and damaged, and large accepted
//! proofs and derivations with their near misses, through the proved code, from buffers of exact length, so that a memory checker sees a read past the end.
//! Then a few translations, into buffers of exact length too.

use compare::bytes::{cut, damage, small_case};
use compare::threads::in_thread;
use compare::translation::{room, Pair};
use compare::{desk, Asked};
use second::generate::large_cases;
use second::generate::rng::Rng;
use second::reader::Second;

const MOST_BYTES: usize = 2_048;
const USUAL_COUNT: u64 = 300;
/// So many cases to a large one, and to one of the derivation check, a call of which clears its tables.
const PER_LARGE: u64 = 30;
const PER_DERIVATION: u64 = 3;
/// So many cases to one that is translated, and to a large one.
const PER_TRANSLATION: u64 = 10;
const PER_LARGE_TRANSLATION: u64 = 100;
/// The questions of which large cases are asked.
const LARGE: [Asked; 2] = [Asked::CheckProof, Asked::CheckDerivation];

fn main() {
    let count = match std::env::args().nth(1) {
        Some(text) => text.parse().expect("a number of cases"),
        None => USUAL_COUNT,
    };
    let done = in_thread(|| {
        let small = Asked::ALL.map(|asked| total(cases(asked, count), |seed| run(asked, seed)));
        let large = LARGE.map(|asked| total(count / PER_LARGE, |seed| run_large(asked, seed)));
        let translated = [
            total(count / PER_TRANSLATION, run_translation),
            total(count / PER_LARGE_TRANSLATION, run_large_translation),
        ];
        small.iter().chain(&large).chain(&translated).sum::<u64>()
    });
    println!("ok {done}");
}

fn cases(asked: Asked, count: u64) -> u64 {
    match asked {
        Asked::CheckDerivation => count / PER_DERIVATION,
        _ => count,
    }
}

fn total(count: u64, run: impl Fn(u64) -> u64) -> u64 {
    (0..count).map(run).sum()
}

/// A large accepted proof or derivation and near misses of it.
fn run_large(asked: Asked, seed: u64) -> u64 {
    let cases = large_cases(asked.kind(), seed);
    cases
        .iter()
        .for_each(|case| ask(asked, &case.obligation, &case.second));
    cases.len() as u64
}

/// One case as it is, damaged, and cut off at random; each file alone in its buffer.
fn run(asked: Asked, seed: u64) -> u64 {
    let mut rng = Rng::new(seed);
    let case = small_case(asked.kind(), seed * 3, MOST_BYTES);
    ask(asked, &case.obligation, &case.second);
    let (mut obligation, mut second) = (case.obligation.clone(), case.second.clone());
    damage(&mut rng, &mut second);
    ask(asked, &obligation, &second);
    damage(&mut rng, &mut obligation);
    ask(asked, &obligation, &second);
    let (mut obligation, mut second) = (case.obligation.clone(), case.second.clone());
    cut(&mut rng, &mut second);
    ask(asked, &case.obligation, &second);
    cut(&mut rng, &mut obligation);
    ask(asked, &obligation, &case.second);
    5
}

fn ask(asked: Asked, obligation: &[u8], second: &[u8]) {
    let first = obligation.to_vec().into_boxed_slice();
    let last = second.to_vec().into_boxed_slice();
    let found = desk::answer(asked, &first, &last);
    assert_eq!(found, asked.second(obligation, second), "{asked:?}");
}

/// One case as it is, damaged, and cut off at random.
fn run_translation(seed: u64) -> u64 {
    let mut rng = Rng::new(seed);
    let case = small_case(Second::Proof, seed * 3, MOST_BYTES);
    let mut damaged = case.second.clone();
    damage(&mut rng, &mut damaged);
    let mut short = case.second.clone();
    cut(&mut rng, &mut short);
    [&case.second, &damaged, &short]
        .map(|proof| translate_all(&case.obligation, proof))
        .iter()
        .sum()
}

fn run_large_translation(seed: u64) -> u64 {
    let case = &large_cases(Second::Proof, seed)[0];
    translate_all(&case.obligation, &case.second)
}

/// Buffers of no bytes, of one byte too few and of just enough.
fn translate_all(obligation: &[u8], proof: &[u8]) -> u64 {
    let sizes = [0, room(proof) - 1, room(proof)];
    sizes
        .iter()
        .for_each(|&size| translate(obligation, proof, size));
    sizes.len() as u64
}

/// One translation; both derivation checks accept what it writes, and the rest of the buffer stays as it is.
fn translate(obligation: &[u8], proof: &[u8], size: usize) {
    const PATTERN: u8 = 0xa5;
    let first = obligation.to_vec().into_boxed_slice();
    let last = proof.to_vec().into_boxed_slice();
    let mut buffer = vec![PATTERN; size].into_boxed_slice();
    let found = desk::translate(&first, &last, &mut buffer);
    let (wanted, length) = Pair::new("", obligation, proof).wanted(size);
    assert_eq!(found, (wanted, length as u64), "a buffer of {size} bytes");
    assert!(buffer[length..].iter().all(|&byte| byte == PATTERN));
    if wanted.is_accepted() {
        ask(Asked::CheckDerivation, obligation, &buffer[..length]);
        let answer = second::check_derivation(obligation, &buffer[..length]);
        assert!(answer.is_accepted(), "the derivation: {answer}");
    }
}
