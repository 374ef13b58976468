//! `second proof OBLIGATION PROOF` or `second derivation OBLIGATION DERIVATION`: the four numbers.
//! `second tree OBLIGATION PROOF`: the listing of the nodes that the proof check enters.

use second::{check_derivation, check_proof, listing};
use std::io::Write;
use std::process::ExitCode;

fn main() -> ExitCode {
    let arguments: Vec<String> = std::env::args().skip(1).collect();
    let [kind, first, second] = &arguments[..] else {
        return usage();
    };
    let output: fn(&[u8], &[u8]) -> Vec<u8> = match kind.as_str() {
        "proof" => |obligation, proof| line(check_proof(obligation, proof)),
        "derivation" => |obligation, derivation| line(check_derivation(obligation, derivation)),
        "tree" => listing,
        _ => return usage(),
    };
    match (std::fs::read(first), std::fs::read(second)) {
        (Ok(obligation), Ok(second)) => print(&output(&obligation, &second)),
        (Err(error), _) => failed(first, &error),
        (_, Err(error)) => failed(second, &error),
    }
}

fn line(answer: second::Answer) -> Vec<u8> {
    format!("{answer}\n").into_bytes()
}

fn print(output: &[u8]) -> ExitCode {
    match std::io::stdout().write_all(output) {
        Ok(()) => ExitCode::SUCCESS,
        Err(error) => failed("standard output", &error),
    }
}

fn usage() -> ExitCode {
    eprintln!("usage: second proof OBLIGATION PROOF");
    eprintln!("       second derivation OBLIGATION DERIVATION");
    eprintln!("       second tree OBLIGATION PROOF");
    ExitCode::from(2)
}

fn failed(what: &str, error: &std::io::Error) -> ExitCode {
    eprintln!("{what}: {error}");
    ExitCode::FAILURE
}
