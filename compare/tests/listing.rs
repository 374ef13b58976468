//! The program's listings of proofs are the second implementation's, byte for byte, with nothing on standard error.

use compare::bytes::{case, raw};
use compare::generated_cases;
use compare::listing::{Listings, Program};
use compare::proofs::{limit_proofs, shape_proofs, vector_proofs, Files};
use compare::shapes::edges::{edges, past_members};
use compare::shapes::walks::walks;
use compare::threads::share_out;
use second::generate::large_cases;
use second::reader::Second;
use second::vectors::{listings, LISTINGS};

const CASES: u64 = 20_000;
/// Each makes some seven pairs.
const LARGE_CASES: u64 = 48;

/// The numbers below `count`, up to the first few differences.
fn compare_all(
    what: &str,
    count: u64,
    compare: impl Fn(&mut Listings, &Program, u64) + Sync,
) -> Listings {
    let listings = share_out(count, Program::in_own_folder, compare);
    listings.report(what);
    listings
}

fn compare_files(what: &str, list: &[Files]) -> Listings {
    let count = list.len() as u64;
    let listings = compare_all(what, count, |listings, program, number| {
        let (label, obligation, proof) = &list[number as usize];
        listings.compare(program, label, obligation, proof);
    });
    assert_eq!(listings.cases(), count);
    listings
}

/// With the outputs that the vectors give.
#[test]
fn vectors_of_listings() {
    let list: Vec<_> = LISTINGS.into_iter().flat_map(listings).collect();
    let count = list.len() as u64;
    let compared = compare_all("listing vectors", count, |listings, program, number| {
        let v = &list[number as usize];
        listings.compare_with(program, &v.label, &v.obligation, &v.proof, &v.output);
    });
    assert_eq!(compared.cases(), 173 + 197);
}

#[test]
fn vectors_of_answers() {
    compare_files("listing of the vectors' proofs", &vector_proofs());
}

#[test]
fn limits_of_the_check() {
    let listings = compare_files("listing at the limits of the check", &limit_proofs());
    // 1,536 nodes, the first line and the last.
    assert_eq!(listings.most_lines, 1_538);
}

#[test]
fn shapes() {
    let shapes = [walks(), edges(), past_members()].into_iter().flatten();
    let listings = compare_files("listing of shapes", &shape_proofs(shapes.collect()));
    assert_eq!((listings.accepted, listings.in_walk), (36, 5));
}

/// Accepted proofs of hundreds of nodes, and near misses of each.
#[test]
fn large_proofs() {
    let count = LARGE_CASES.min(generated_cases(CASES));
    let what = "listing of large proofs and near misses";
    let listings = compare_all(what, count, |listings, program, seed| {
        for case in large_cases(Second::Proof, seed) {
            let label = format!("seed {seed} {}", case.label);
            listings.compare(program, &label, &case.obligation, &case.second);
        }
    });
    assert!(listings.cases() > count, "{} cases", listings.cases());
}

/// Of four pairs three are written, right or wrong, and one is of random or damaged bytes.
fn generated_pair(seed: u64) -> Files {
    match seed % 4 {
        3 => {
            let (label, [obligation, proof]) = raw(Second::Proof, seed);
            (format!("raw {seed} {label}"), obligation, proof)
        }
        _ => {
            let case = case(Second::Proof, seed);
            let label = format!("seed {seed} {}", case.label);
            (label, case.obligation, case.second)
        }
    }
}

#[test]
fn generated() {
    let count = generated_cases(CASES);
    let what = "listing of generated pairs";
    let listings = compare_all(what, count, |listings, program, seed| {
        let (label, obligation, proof) = generated_pair(seed);
        listings.compare(program, &label, &obligation, &proof);
    });
    assert_eq!(listings.cases(), count);
    // Of a few cases these shares need not be.
    if count >= 1_000 {
        let counts = [listings.accepted, listings.before_walk, listings.in_walk];
        assert!(
            counts.iter().all(|&share| share >= count / 10),
            "{counts:?}"
        );
    }
}
