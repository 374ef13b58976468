//! `coverage COUNT [FROM]`: the coverage table of so many seeds of each kind.

use second::coverage::Coverage;
use second::reader::Second;
use std::process::ExitCode;
use std::time::Instant;

fn main() -> ExitCode {
    let numbers: Option<Vec<u64>> = std::env::args().skip(1).map(|n| n.parse().ok()).collect();
    let (count, from) = match numbers.as_deref() {
        Some([count]) => (*count, 0),
        Some([count, from]) => (*count, *from),
        _ => {
            eprintln!("usage: coverage COUNT [FROM]");
            return ExitCode::from(2);
        }
    };
    let mut whole = true;
    for kind in [Second::Proof, Second::Derivation] {
        let start = Instant::now();
        let coverage = Coverage::of_seeds(kind, from, count);
        let time = start.elapsed();
        print!("{coverage}");
        let each = time.as_secs_f64() * 1e6 / count.max(1) as f64;
        println!("  {each:.0} ms for 1,000 cases: generation, check and counts");
        for line in &coverage.broken {
            println!("  not as promised: {line}");
            whole = false;
        }
    }
    match whole {
        true => ExitCode::SUCCESS,
        false => ExitCode::FAILURE,
    }
}
