//! `bench [SYMBOLS [NAME]]`: time per call of the proved code next to the second implementation's, on the
//! same files: the reading, and for accepted proofs (w) and derivations (x) the whole check; then the proved code's check,
//! translation and check of the derivation, of the accepted proofs. At most SYMBOLS symbols where names are measured; only
//! shapes with NAME in their name.

use compare::shapes::derivations::{derivations, whole_derivations};
use compare::shapes::walks::walks;
use compare::shapes::{shapes, Shape};
use compare::threads::in_thread;
use compare::translation::{room, translated};
use compare::{desk, Asked};
use second::reader::Second;
use second::Answer;
use std::hint::black_box;
use std::time::{Duration, Instant};

const ROUNDS: usize = 7;
/// No further round once this much time has gone.
const ENOUGH: Duration = Duration::from_secs(3);
/// A reading, or a check, that takes longer is told at the end.
const SLOW_READING: Duration = Duration::from_secs(1);
const SLOW_CHECK: Duration = Duration::from_secs(2);
const USUAL_SYMBOLS: u32 = 4_000;

fn main() {
    let mut arguments = std::env::args().skip(1);
    let symbols = match arguments.next() {
        Some(text) => text.parse().expect("a number of symbols"),
        None => USUAL_SYMBOLS,
    };
    let wanted = arguments.next().unwrap_or_default();
    let kept = |list: Vec<Shape>| {
        list.into_iter()
            .filter(|shape| shape.name.contains(&wanted))
    };
    let mut slow = Vec::new();
    println!("{READING_HEAD}");
    for kind in [Second::Proof, Second::Derivation] {
        for shape in kept(shapes(kind, symbols)) {
            let times = in_thread(|| measure(&shape, reading(kind)));
            println!("{}", reading_row(&shape, &times));
            slow.extend((times.proved > SLOW_READING).then_some(shape.name));
        }
    }
    println!("{CHECK_HEAD}");
    let checked = [walks(), derivations(), whole_derivations()].concat();
    for shape in kept(checked) {
        let times = in_thread(|| measure(&shape, check(shape.kind)));
        assert!(
            times.answer.is_accepted(),
            "{}: {}",
            shape.name,
            times.answer
        );
        println!("{}", check_row(&shape, &times));
        slow.extend((times.proved > SLOW_CHECK).then_some(shape.name));
    }
    println!("{TRANSLATION_HEAD}");
    for shape in kept(walks()) {
        let translation = in_thread(|| measure_translation(&shape));
        println!("{}", translation_row(&shape, &translation));
        slow.extend((translation.time > SLOW_CHECK).then_some(shape.name));
    }
    match slow.is_empty() {
        true => println!("no reading over 1 s, no check or translation over 2 s"),
        false => println!(
            "over 1 s (reading) or 2 s (check, translation): {}",
            slow.join("; ")
        ),
    }
}

fn reading(kind: Second) -> Asked {
    match kind {
        Second::Proof => Asked::ReadProof,
        Second::Derivation => Asked::ReadDerivation,
    }
}

fn check(kind: Second) -> Asked {
    match kind {
        Second::Proof => Asked::CheckProof,
        Second::Derivation => Asked::CheckDerivation,
    }
}

const READING_HEAD: &str =
    "reading                                              records   proved ms   second ms proved ns second ns  answer";
const CHECK_HEAD: &str =
    "check                                                records  nodes   proved ms   second ms nodes a second  ratio";

const TRANSLATION_HEAD: &str =
    "translation                                            proof derivation    check ms translation ms derivation's check ms    chain ms  bytes a byte";

fn reading_row(shape: &Shape, times: &Times) -> String {
    let records = shape.records();
    let per_record = |time: Duration| time.as_nanos() as f64 / records as f64;
    format!(
        "{:<52} {records:>7} {:>11.3} {:>11.3} {:>9.1} {:>9.1}  {}",
        shape.name,
        milliseconds(times.proved),
        milliseconds(times.second),
        per_record(times.proved),
        per_record(times.second),
        times.answer
    )
}

/// The ratio is the proved code's time to the second implementation's.
fn check_row(shape: &Shape, times: &Times) -> String {
    let nodes = times.answer.nodes;
    format!(
        "{:<52} {:>7} {nodes:>6} {:>11.3} {:>11.3} {:>14.0} {:>6.1}",
        shape.name,
        shape.records(),
        milliseconds(times.proved),
        milliseconds(times.second),
        nodes as f64 / times.proved.as_secs_f64(),
        times.proved.as_secs_f64() / times.second.as_secs_f64()
    )
}

/// The records of the proof and of the derivation, headers counted, and how many bytes the derivation has for each of the proof's.
fn translation_row(shape: &Shape, translation: &Translation) -> String {
    let (proof, derivation) = (shape.second.len(), translation.bytes);
    format!(
        "{:<52} {:>7} {:>10} {:>11.3} {:>14.3} {:>21.3} {:>11.3} {:>13.1}",
        shape.name,
        proof / 16,
        derivation / 16,
        milliseconds(translation.check),
        milliseconds(translation.time),
        milliseconds(translation.derivation_check),
        milliseconds(translation.chain),
        derivation as f64 / proof as f64
    )
}

struct Times {
    proved: Duration,
    second: Duration,
    answer: Answer,
}

/// The least time of each; both must answer alike.
fn measure(shape: &Shape, asked: Asked) -> Times {
    let files = || (black_box(&shape.obligation), black_box(&shape.second));
    let (proved, answer) = best(|| {
        let (obligation, second) = files();
        desk::answer(asked, obligation, second)
    });
    let (second, wanted) = best(|| {
        let (obligation, second) = files();
        asked.second(obligation, second)
    });
    assert_eq!(answer, wanted, "{}", shape.name);
    Times {
        proved,
        second,
        answer,
    }
}

struct Translation {
    check: Duration,
    time: Duration,
    derivation_check: Duration,
    /// All three, one after the other.
    chain: Duration,
    bytes: usize,
}

/// The least time of each; all must accept.
fn measure_translation(shape: &Shape) -> Translation {
    let files = || (black_box(&shape.obligation), black_box(&shape.second));
    let accepted = |call: &mut dyn FnMut() -> Answer| {
        let (time, answer) = best(call);
        assert!(answer.is_accepted(), "{}: {answer}", shape.name);
        time
    };
    let derivation = translated(&shape.obligation, &shape.second);
    let mut buffer = vec![0; room(&shape.second)];
    Translation {
        check: accepted(&mut || {
            let (obligation, proof) = files();
            desk::answer(Asked::CheckProof, obligation, proof)
        }),
        time: accepted(&mut || {
            let (obligation, proof) = files();
            desk::translate(obligation, proof, black_box(&mut buffer)).0
        }),
        derivation_check: accepted(&mut || {
            let (obligation, _) = files();
            desk::answer(Asked::CheckDerivation, obligation, black_box(&derivation))
        }),
        chain: accepted(&mut || {
            let (obligation, proof) = files();
            desk::answer(Asked::CheckProof, obligation, proof);
            let (_, length) = desk::translate(obligation, proof, black_box(&mut buffer));
            let derivation = &buffer[..length as usize];
            desk::answer(Asked::CheckDerivation, obligation, black_box(derivation))
        }),
        bytes: derivation.len(),
    }
}

fn milliseconds(time: Duration) -> f64 {
    time.as_secs_f64() * 1_000.0
}

fn best(mut call: impl FnMut() -> Answer) -> (Duration, Answer) {
    let start = Instant::now();
    let mut rounds = Vec::new();
    let mut answer = Answer::accepted(0);
    while rounds.len() < ROUNDS && start.elapsed() < ENOUGH {
        let round = Instant::now();
        answer = call();
        rounds.push(round.elapsed());
    }
    (rounds.into_iter().min().unwrap_or_default(), answer)
}
