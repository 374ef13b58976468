//! Many generated cases: what they cover, and that labels keep their promises.

use second::coverage::{rules, Coverage};
use second::generate::expr::{all, bottom, bound, choice, given, implies, member, not};
use second::generate::limits::limits;
use second::generate::rng::Rng;
use second::generate::world::World;
use second::generate::writer::Writer;
use second::generate::{derivation_case, large_cases, promised, proof_case};
use second::positions::{of_case, Position};
use second::reader::Second;

const SEEDS: u64 = 20_000;
const WANTED: u64 = 20;
/// For each rule with one part or premise fewer or more.
const WANTED_NUMBERS: u64 = 10;
const LARGE_SEEDS: u64 = 200;

fn covers(kind: Second) {
    let coverage = Coverage::of_seeds(kind, 0, SEEDS);
    println!("{coverage}");
    assert!(coverage.broken.is_empty(), "{}", coverage.broken.join("\n"));
    let lacking = coverage.lacking(WANTED);
    assert!(lacking.is_empty(), "{}", lacking.join("\n"));
    // A good part accepted, a good part refused.
    assert!(coverage.accepted * 5 > SEEDS && coverage.accepted * 5 < 4 * SEEDS);
    // A proof has no limit of depth: 18 cannot occur there.
    assert!(kind == Second::Derivation || coverage.cases_of(18) == 0);
    covers_choices(&coverage);
    let numbers = &coverage.numbers;
    assert!(numbers.fewest() >= WANTED_NUMBERS, "{numbers}");
}

/// Choices stand in every place of accepted files, and are at fault at 4, 5, 7, 10 and 13 to 16.
fn covers_choices(coverage: &Coverage) {
    let choices = &coverage.choices;
    assert!(choices.accepted * 4 > coverage.accepted);
    assert!(choices.records > 10_000);
    for position in Position::ALL {
        let files = choices.files(position);
        match position.can_occur(coverage.kind) {
            true => assert!(files >= WANTED, "{position:?}: {files} accepted files"),
            false => assert_eq!(files, 0, "{position:?}"),
        }
    }
    assert!(choices.refused * 4 > coverage.cases - coverage.accepted);
    for refusal in [4, 5, 7, 10, 13, 14, 15, 16] {
        let cases = choices.refusals(refusal);
        assert!(cases >= WANTED, "choices at fault, {refusal}: {cases}");
    }
}

#[test]
fn proofs() {
    covers(Second::Proof);
}

#[test]
fn derivations() {
    covers(Second::Derivation);
}

/// Of the formulas with SET5's signs and index 0 or 1 for each variable, the axiom alone is counted.
#[test]
fn set5_by_its_indices() {
    let (world, ty) = (World::bare(), given(0));
    for indices in 0..16u32 {
        let variable = |place: u32| bound(indices >> place & 1, ty.clone());
        let empty = all(ty.clone(), not(member(variable(0), variable(1))));
        let chosen = member(choice(variable(2), ty.clone()), variable(3));
        let formula = all(ty.clone(), implies(not(empty), chosen));
        let mut w = Writer::new(Rng::new(0));
        let goal = w.write(&world, &not(bottom()));
        w.end_obligation(false);
        let parts = [&formula, &variable(0)].map(|part| w.write(&world, part));
        let chain = w.chain(&parts);
        let root = w.push(78, chain, 0, 0);
        let (obligation, second) = w.files(0, goal, root);
        let found = of_case(&obligation, &second, Second::Derivation);
        assert!(found.positions.contains(&Position::Part));
        // Index 1 for s within ∀x only.
        let is_set5 = found.positions.contains(&Position::Set5);
        assert_eq!(is_set5, indices == 0b0010, "{indices:04b}");
    }
}

/// Large accepted files in number, with all rules, and near misses of them.
fn large(kind: Second) {
    let mut coverage = Coverage::new(kind);
    let mut of_hundreds = 0;
    for case in (0..LARGE_SEEDS).flat_map(|seed| large_cases(kind, seed)) {
        let answer = coverage.add(&case);
        let kept = promised(&case.label).is_none_or(|refusal| refusal == answer.refusal);
        assert!(kept, "{}: {answer}", case.label);
        of_hundreds += u64::from(answer.is_accepted() && answer.nodes >= 200);
    }
    println!("large {coverage}");
    assert!(of_hundreds > LARGE_SEEDS);
    assert!(rules(kind).all(|rule| coverage.files[rule] > LARGE_SEEDS / 2));
    assert!((12..=17).all(|refusal| coverage.cases_of(refusal) > 0));
    assert!(coverage.choices.accepted * 4 > coverage.accepted);
}

#[test]
fn large_proofs() {
    large(Second::Proof);
}

#[test]
fn large_derivations() {
    large(Second::Derivation);
}

#[test]
fn limit_cases() {
    for kind in [Second::Proof, Second::Derivation] {
        let mut coverage = Coverage::new(kind);
        let list = limits();
        for limit in list.iter().filter(|limit| limit.kind == kind) {
            assert_eq!(
                coverage.add(&limit.case),
                limit.answer,
                "{}",
                limit.case.label
            );
        }
        println!("limits of {coverage}");
        assert!(coverage.cases > 500);
    }
}

#[test]
fn the_same_seed_makes_the_same_case() {
    for seed in (0..2_000).chain([u64::MAX, u64::MAX / 2, 1 << 63]) {
        let (first, again) = (proof_case(seed), proof_case(seed));
        assert!(first.second == again.second && first.obligation == again.obligation);
        let (first, again) = (derivation_case(seed), derivation_case(seed));
        assert!(first.second == again.second && first.obligation == again.obligation);
        assert_eq!(first.label, again.label);
    }
}

/// Bytes without any sense, and cases cut and joined: no panic, and the reader agrees with the check.
#[test]
fn any_bytes() {
    let mut rng = Rng::new(7);
    for round in 0..4_000u64 {
        let case = match round % 2 {
            0 => proof_case(round),
            _ => derivation_case(round),
        };
        let (mut first, mut second) = (case.obligation, case.second);
        if rng.chance(30) {
            first = (0..rng.below(200)).map(|_| rng.word() as u8).collect();
        }
        for _ in 0..rng.below(6) {
            if !second.is_empty() {
                let at = rng.below(second.len());
                second[at] = rng.word() as u8;
            }
        }
        if rng.chance(20) {
            second.truncate(rng.below(second.len() + 1));
        }
        let proof = second::check_proof(&first, &second);
        let read = second::read_proof(&first, &second);
        assert_eq!(read.refusal != 0, (1..=12).contains(&proof.refusal));
        let derivation = second::check_derivation(&first, &second);
        let read = second::read_derivation(&first, &second);
        assert_eq!(read.refusal != 0, (1..=12).contains(&derivation.refusal));
        second::check_proof(&second, &first);
        second::check_derivation(&second, &first);
    }
}
