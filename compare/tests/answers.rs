//! The proved code gives the second implementation's answers: places 1 to 12, the proof check and the derivation check.

use compare::bytes::{case, raw};
use compare::desk;
use compare::tally::Tally;
use compare::threads::{in_thread, share_out};
use compare::{generated_cases, Asked};
use second::generate::large_cases;
use second::generate::limits::limits;
use second::reader::Second;
use second::vectors::{vectors, FILES};
use second::Answer;

const CASES: u64 = 60_000;
const CHECKED_CASES: u64 = 100_000;
const RAW_CASES: u64 = 30_000;
/// From so many generated cases on, a quarter of the accepted ones has a choice.
const ENOUGH: u64 = 1_000;
/// Each makes some seven pairs.
const LARGE_CASES: u64 = 3_000;

/// The number of generated cases for a question: COMPARE_CASES, or the usual one.
fn cases(asked: Asked) -> u64 {
    generated_cases(match asked {
        Asked::CheckProof | Asked::CheckDerivation => CHECKED_CASES,
        Asked::ReadProof | Asked::ReadDerivation => CASES,
    })
}

/// The questions that files of this kind are an input of.
fn questions(kind: Second) -> impl Iterator<Item = Asked> {
    Asked::ALL
        .into_iter()
        .filter(move |asked| asked.kind() == kind)
}

#[test]
fn vector_files() {
    for file in FILES {
        let tally = in_thread(|| {
            let mut tally = Tally::default();
            for v in vectors(file) {
                for asked in questions(v.kind) {
                    let wanted = asked.of_whole(v.answer);
                    tally.compare_with(&v.label, asked, &v.obligation, &v.second, wanted);
                }
            }
            tally
        });
        tally.report(file);
    }
}

#[test]
fn edges() {
    let tally = in_thread(|| {
        let mut tally = Tally::default();
        for limit in limits() {
            let case = limit.case;
            let (obligation, second) = (&case.obligation, &case.second);
            for asked in questions(limit.kind) {
                tally.compare(&case.label, asked, obligation, second);
                let wanted = asked.of_whole(limit.answer);
                tally.compare_with(&case.label, asked, obligation, second, wanted);
            }
        }
        tally
    });
    tally.report("edges, each against both answers");
}

/// Every question, with the numbers below its count, up to the first few differences: the counts of each.
fn compare_all(
    what: &str,
    count: impl Fn(Asked) -> u64,
    compare: impl Fn(&mut Tally, Asked, u64) + Sync,
) -> Vec<(String, Tally)> {
    let mut reports = Vec::new();
    for asked in Asked::ALL {
        let count = count(asked);
        let tally = share_out(count, || (), |tally, (), seed| compare(tally, asked, seed));
        reports.push((format!("{what} {asked:?}"), tally));
    }
    reports.iter().for_each(|(what, tally)| tally.report(what));
    reports
}

#[test]
fn generated() {
    let reports = compare_all("generated", cases, |tally, asked, seed| {
        let case = case(asked.kind(), seed);
        let label = format!("seed {seed} {}", case.label);
        tally.compare(&label, asked, &case.obligation, &case.second);
    });
    for (what, tally) in reports.iter().filter(|(_, tally)| tally.cases >= ENOUGH) {
        let accepted = tally.refusals[0][0];
        assert!(
            tally.choices * 4 > accepted,
            "{what}: {} with a choice",
            tally.choices
        );
    }
}

/// Accepted files of hundreds of nodes, and near misses of each.
fn large(asked: Asked, what: &str) {
    let count = LARGE_CASES.min(cases(asked));
    let tally = share_out(
        count,
        || (),
        |tally: &mut Tally, (), seed| {
            for case in large_cases(asked.kind(), seed) {
                let label = format!("seed {seed} {}", case.label);
                tally.compare(&label, asked, &case.obligation, &case.second);
            }
        },
    );
    tally.report(what);
    assert!(tally.large > count, "{} of hundreds of nodes", tally.large);
}

#[test]
fn large_proofs() {
    large(Asked::CheckProof, "large proofs and near misses");
}

#[test]
fn large_derivations() {
    large(Asked::CheckDerivation, "large derivations and near misses");
}

/// Random files and damaged ones, at odd addresses too.
#[test]
fn raw_bytes() {
    compare_all(
        "raw",
        |_| RAW_CASES,
        |tally, asked, seed| {
            let (label, files) = raw(asked.kind(), seed);
            let shift = seed as usize % 3;
            let [obligation, second] =
                files.map(|bytes| [&vec![0; shift][..], &bytes[..]].concat());
            let label = format!("raw {seed} {label}");
            tally.compare(&label, asked, &obligation[shift..], &second[shift..]);
        },
    );
}

#[test]
fn packed_answers() {
    let packed = 12 << 56 | 2 << 48 | 200_000 << 24 | 7;
    assert_eq!(desk::unpack(packed), Answer::new(12, 2, 200_000, 7));
    assert_eq!(desk::unpack(0), Answer::accepted(0));
}
