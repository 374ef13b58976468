//! The translation answers the proof check's numbers, or 19 just where the buffer is too short; the second implementation's
//! derivation check, which knows nothing of the translation, accepts what it writes; and no other byte is changed.

use compare::bytes::{case, raw};
use compare::proofs::{limit_proofs, shape_proofs, vector_proofs, Files};
use compare::shapes::edges::{edges, past_members};
use compare::shapes::walks::walks;
use compare::shapes::Shape;
use compare::tally::Tally;
use compare::threads::{in_thread, share_out};
use compare::translation::{length, room, translated, Pair, Trials, MOST_ROOM};
use compare::{generated_cases, Asked};
use second::check_proof;
use second::generate::large_cases;
use second::reader::{read, Item, Second};

const CASES: u64 = 50_000;
const LARGE_CASES: u64 = 400;
const RAW_CASES: u64 = 20_000;

/// The numbers below `count`, up to the first few faults.
fn trials(what: &str, count: u64, try_one: impl Fn(&mut Trials, u64) + Sync) -> Trials {
    let trials = share_out(count, || (), |trials, (), number| try_one(trials, number));
    trials.report(what);
    trials
}

/// Each pair with a buffer of no bytes, one as long as the derivation, one byte too short, just long enough, one byte longer,
/// and longer than any has to be.
fn in_all_sizes(what: &str, list: &[Files]) -> Trials {
    let trials = trials(what, list.len() as u64, |trials, number| {
        let (label, obligation, proof) = &list[number as usize];
        let enough = room(proof);
        let short = [0, length(proof), enough - 1];
        let long = [enough, enough + 1, MOST_ROOM + 5];
        let pair = Pair::new(label, obligation, proof);
        trials.pair(&pair, 0, &[short, long].concat());
    });
    assert_eq!(trials.accepted + trials.refused, list.len() as u64);
    assert_eq!(trials.written, 3 * trials.accepted);
    assert_eq!(trials.short, 3 * trials.accepted);
    trials
}

#[test]
fn sizes() {
    let header = [0; 16];
    assert_eq!(room(&header), 16 * 65);
    assert_eq!(room(&[0; 16 * 3_073]), MOST_ROOM);
    assert_eq!(MOST_ROOM, 3_146_768);
    assert_eq!(length(&header), 16 * 6);
    let mut every_rule = header.to_vec();
    for kind in 32..=46u32 {
        every_rule.extend_from_slice(&kind.to_le_bytes());
        every_rule.extend_from_slice(&[0; 12]);
    }
    assert_eq!(length(&every_rule), 16 * (1 + 15 + 172 + 5));
}

#[test]
fn vector_files() {
    let trials = in_all_sizes("translation of the vectors", &vector_proofs());
    assert!(trials.accepted >= 260, "{} accepted", trials.accepted);
    assert!(trials.refused >= 821, "{} refused", trials.refused);
    assert!(trials.rules.iter().all(|&nodes| nodes >= 18));
}

#[test]
fn limits_of_the_check() {
    let trials = in_all_sizes("translation at the limits of the check", &limit_proofs());
    assert!(trials.accepted >= 526, "{} accepted", trials.accepted);
    assert!(trials.refused >= 1_377, "{} refused", trials.refused);
}

/// The limits that a translation meets are among those of the check.
#[test]
fn limits_are_tried() {
    let accepted: Vec<Files> = limit_proofs()
        .into_iter()
        .filter(|(_, obligation, proof)| check_proof(obligation, proof).is_accepted())
        .collect();
    let count = |ending: &str| {
        let found = accepted
            .iter()
            .filter(|(label, ..)| label.ends_with(ending));
        found.count()
    };
    assert_eq!(count("to 1024 members"), 10);
    assert_eq!(count("second file of 3073 records"), 1);
    assert_eq!(count("obligation of 1024 records"), 1);
    assert_eq!(count(" 256 hypotheses"), 1);
}

#[test]
fn measured_proofs() {
    let trials = in_all_sizes("translation of the measured proofs", &shape_proofs(walks()));
    assert_eq!((trials.accepted, trials.refused), (14, 0));
    assert_eq!(trials.large, 14);
    assert!(trials.most_nodes >= 1_500, "{} nodes", trials.most_nodes);
}

#[test]
fn edges_of_the_translation() {
    let trials = in_all_sizes("translation at the edges", &shape_proofs(edges()));
    assert_eq!((trials.accepted, trials.refused), (22, 0));
    let trials = in_all_sizes("translation past the edges", &shape_proofs(past_members()));
    assert_eq!((trials.accepted, trials.refused), (0, 5));
}

/// The most that a type, term or formula of the two files weighs.
fn heaviest(obligation: &[u8], second: &[u8], kind: Second) -> u64 {
    let book = read(obligation, second, kind).unwrap_or_else(|answer| panic!("{answer}"));
    let ids = book.items.iter().filter_map(Item::id);
    ids.map(|id| book.arena.facts(id).weight)
        .max()
        .unwrap_or_default()
}

/// The edges are where they should be.
#[test]
fn edges_are_reached() {
    let list = edges();
    let count = |holds: &dyn Fn(&Shape) -> bool| list.iter().filter(|shape| holds(shape)).count();
    let records = |bytes: &[u8]| bytes.len() / 16;
    assert_eq!(count(&|shape| records(&shape.second) == 3_073), 5);
    assert_eq!(count(&|shape| records(&shape.obligation) == 1_024), 2);
    let nodes_of_42 = |shape: &Shape| {
        let (answer, rules) =
            second::check_counting(&shape.obligation, &shape.second, Second::Proof);
        assert!(answer.is_accepted(), "{}: {answer}", shape.name);
        rules[42]
    };
    assert_eq!(count(&|shape| nodes_of_42(shape) >= 500), 4);
    let heavy = |shape: &Shape| heaviest(&shape.obligation, &shape.second, Second::Proof) == 4_096;
    assert_eq!(count(&heavy), 6);
    for shape in past_members() {
        let answer = check_proof(&shape.obligation, &shape.second);
        assert_eq!(answer.refusal, 17, "{}", shape.name);
    }
}

/// Derivations of the edges have records that weigh more than a proof's may.
#[test]
fn heavier_than_a_proof() {
    let heavy = in_thread(|| {
        let weights = edges().into_iter().map(|shape| {
            let derivation = translated(&shape.obligation, &shape.second);
            heaviest(&shape.obligation, &derivation, Second::Derivation)
        });
        weights
            .filter(|&weight| weight > 4_096)
            .collect::<Vec<u64>>()
    });
    assert_eq!(heavy, [8_187, 4_099, 8_193, 8_187]);
}

/// The proved derivation check answers as the second implementation's.
#[test]
fn both_derivation_checks() {
    let list = [
        vector_proofs(),
        limit_proofs(),
        shape_proofs(walks()),
        shape_proofs(edges()),
    ]
    .concat();
    let tally = in_thread(|| {
        let mut tally = Tally::default();
        for (label, obligation, proof) in &list {
            if check_proof(obligation, proof).is_accepted() {
                let derivation = translated(obligation, proof);
                tally.compare(label, Asked::CheckDerivation, obligation, &derivation);
            }
        }
        tally
    });
    tally.report("derivations of accepted proofs");
    assert!(tally.cases >= 822, "{} cases", tally.cases);
    assert_eq!(tally.refusals[0][0], tally.cases);
}

/// At odd places too, with a buffer one byte too short and one of at least what is needed.
#[test]
fn generated() {
    let count = generated_cases(CASES);
    let trials = trials("translation of generated proofs", count, |trials, seed| {
        let case = case(Second::Proof, seed);
        let label = format!("seed {seed} {}", case.label);
        let pair = Pair::new(&label, &case.obligation, &case.second);
        let enough = room(&case.second);
        let more = [0, 1, 16, 777][seed as usize % 4];
        trials.pair(&pair, seed as usize % 3, &[enough - 1, enough + more]);
    });
    assert_eq!(trials.accepted + trials.refused, count);
    assert_eq!(trials.written, trials.accepted);
    assert_eq!(trials.short, trials.accepted);
    // Of the usual number 20,000 are accepted at least; of a few cases these shares need not be.
    if count >= 1_000 {
        let least = count / 5 * 2;
        assert!(trials.accepted >= least, "{} accepted", trials.accepted);
        assert!(trials.refused >= least, "{} refused", trials.refused);
        assert!(trials.rules.iter().all(|&nodes| nodes >= count / 20));
    }
}

/// Accepted proofs of hundreds of nodes, and near misses of each.
#[test]
fn large_proofs() {
    let count = LARGE_CASES.min(generated_cases(CASES));
    let what = "translation of large proofs and near misses";
    let trials = trials(what, count, |trials, seed| {
        for case in large_cases(Second::Proof, seed) {
            let label = format!("seed {seed} {}", case.label);
            let pair = Pair::new(&label, &case.obligation, &case.second);
            let enough = room(&case.second);
            trials.pair(&pair, seed as usize % 3, &[enough - 1, enough]);
        }
    });
    assert!(
        trials.large > count,
        "{} of hundreds of nodes",
        trials.large
    );
    assert!(trials.refused > count, "{} refused", trials.refused);
    assert_eq!(trials.written, trials.accepted);
    assert_eq!(trials.short, trials.accepted);
}

/// Random files and damaged ones, at odd places too.
#[test]
fn raw_bytes() {
    let trials = trials("translation of raw bytes", RAW_CASES, |trials, seed| {
        let (label, files) = raw(Second::Proof, seed);
        let shift = seed as usize % 3;
        let [obligation, proof] = files.map(|bytes| [&vec![0; shift][..], &bytes[..]].concat());
        let (obligation, proof) = (&obligation[shift..], &proof[shift..]);
        let pair = Pair::new(&format!("raw {seed} {label}"), obligation, proof);
        let enough = room(proof);
        trials.pair(&pair, shift, &[0, enough - 1, enough]);
    });
    assert_eq!(trials.accepted + trials.refused, RAW_CASES);
    assert!(trials.accepted >= 200, "{} accepted", trials.accepted);
    assert!(trials.refused >= 19_000, "{} refused", trials.refused);
    assert_eq!(trials.written, trials.accepted);
    assert_eq!(trials.short, 2 * trials.accepted);
}
