//! Each limit at its edge and one past it.

use second::generate::choices;
use second::generate::gadgets::WEIGHT_SORTS;
use second::generate::limits::limits;
use second::reader::Second;
use second::{check_derivation, check_proof};

/// The sorts of choices are the last ones.
const FIRST_CHOICE_SORT: usize = WEIGHT_SORTS - choices::WEIGHT_SORTS;

#[test]
fn limits_have_their_answers() {
    let list = limits();
    let mut differ = Vec::new();
    for limit in &list {
        let (obligation, second) = (&limit.case.obligation, &limit.case.second);
        let found = match limit.kind {
            Second::Proof => check_proof(obligation, second),
            Second::Derivation => check_derivation(obligation, second),
        };
        if found != limit.answer {
            differ.push(format!(
                "{}: {} is wanted, {} is found",
                limit.case.label, limit.answer, found
            ));
        }
    }
    println!("{} limit cases, {} differ", list.len(), differ.len());
    assert!(list.len() > 1_000);
    assert!(differ.is_empty(), "{}", differ.join("\n"));
}

/// The proofs of the most nodes are as long as a file may be, and the deepest of each sort are there.
#[test]
fn the_most_nodes_and_the_deepest() {
    let list = limits();
    let proofs = |word: &'static str| {
        let proofs = list.iter().filter(|limit| limit.kind == Second::Proof);
        proofs.filter(move |limit| limit.case.label.contains(word))
    };
    assert_eq!(proofs(" 1536 nodes ").count(), 6);
    for limit in proofs(" 1536 nodes ") {
        assert_eq!(limit.case.second.len(), 16 * 3_073, "{}", limit.case.label);
        assert_eq!(limit.answer.nodes, 1_536);
    }
    let accepted = |word| proofs(word).filter(|limit| limit.answer.is_accepted());
    assert_eq!(accepted(" 1536 nodes ").count(), 3);
    assert_eq!(accepted(" 1024 nodes deep").count(), 3);
    assert_eq!(proofs(" 1025 nodes deep").count(), 3);
    assert!(proofs(" 1025 nodes deep").all(|limit| limit.answer.refusal == 17));
}

/// Choices of each sort at the weight limit of each file pass, those one heavier are refused for it.
#[test]
fn the_heaviest_choices() {
    let list = limits();
    for (most, places) in [(4_096, 3), (16_384, 1)] {
        for sort in FIRST_CHOICE_SORT..WEIGHT_SORTS {
            for (weight, refusal) in [(most - 1, 0), (most, 0), (most + 1, 7)] {
                let label = format!("weight {weight} of sort {sort} in");
                let found = list.iter().filter(|l| l.case.label.contains(&label));
                let right = found.filter(|l| l.answer.refusal == refusal);
                assert_eq!(right.count(), places, "{label}");
            }
        }
    }
}
