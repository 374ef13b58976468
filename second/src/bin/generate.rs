//! `generate KIND FROM COUNT DIR`: writes the cases of these seeds as files, KIND being `proof` or
//! `derivation`. Case N becomes `N.obligation` and `N.proof` or `N.derivation`; `labels.txt` has a line
//! `N LABEL` for each.
//!
//! With KIND `limits-proof` or `limits-derivation`, FROM and COUNT go over the edge cases.

use second::generate::{derivation_case, limits::limits, proof_case, Case};
use second::reader::Second;
use std::io::Write;
use std::path::Path;
use std::process::ExitCode;

fn main() -> ExitCode {
    let arguments: Vec<String> = std::env::args().skip(1).collect();
    let [kind, from, count, dir] = &arguments[..] else {
        return usage();
    };
    let (Ok(from), Ok(count)) = (from.parse::<u64>(), count.parse::<u64>()) else {
        return usage();
    };
    let seeds = from..from.saturating_add(count);
    let cases: Box<dyn Iterator<Item = (u64, Case)>> = match kind.as_str() {
        "proof" => Box::new(seeds.map(|seed| (seed, proof_case(seed)))),
        "derivation" => Box::new(seeds.map(|seed| (seed, derivation_case(seed)))),
        "limits-proof" => Box::new(edges(Second::Proof).filter(move |e| seeds.contains(&e.0))),
        "limits-derivation" => {
            Box::new(edges(Second::Derivation).filter(move |e| seeds.contains(&e.0)))
        }
        _ => return usage(),
    };
    let extension = kind.trim_start_matches("limits-");
    match write(cases, extension, Path::new(dir)) {
        Ok(()) => ExitCode::SUCCESS,
        Err(error) => {
            eprintln!("{dir}: {error}");
            ExitCode::FAILURE
        }
    }
}

fn usage() -> ExitCode {
    eprintln!("usage: generate proof|derivation|limits-proof|limits-derivation FROM COUNT DIR");
    ExitCode::from(2)
}

fn edges(kind: Second) -> impl Iterator<Item = (u64, Case)> {
    let list = limits().into_iter().filter(move |limit| limit.kind == kind);
    (0..).zip(list.map(|limit| limit.case))
}

fn write(
    cases: impl Iterator<Item = (u64, Case)>,
    extension: &str,
    dir: &Path,
) -> std::io::Result<()> {
    std::fs::create_dir_all(dir)?;
    let mut labels = std::io::BufWriter::new(std::fs::File::create(dir.join("labels.txt"))?);
    for (number, case) in cases {
        std::fs::write(dir.join(format!("{number}.obligation")), &case.obligation)?;
        std::fs::write(dir.join(format!("{number}.{extension}")), &case.second)?;
        writeln!(labels, "{number} {}", case.label)?;
    }
    labels.flush()
}
