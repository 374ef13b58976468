//! `stack proof|translation|derivation BYTES [NAME]`: every accepted proof that is measured, checked or translated, or the
//! deepest derivations, checked, by the proved code in a thread with so large a stack; only shapes with NAME in their name. It
//! ends `ok` or is stopped by the system: how much the deepest walk takes is found by trying.

use compare::shapes::derivations::deepest_derivations;
use compare::shapes::walks::walks;
use compare::translation::translated;
use compare::{desk, Asked};
use std::thread::Builder;

fn main() {
    let arguments: Vec<String> = std::env::args().skip(1).collect();
    let argument = |i: usize| arguments.get(i).map_or("", String::as_str);
    let (asked, mut shapes) = match argument(0) {
        "proof" => (Some(Asked::CheckProof), walks()),
        "translation" => (None, walks()),
        "derivation" => (Some(Asked::CheckDerivation), deepest_derivations()),
        _ => panic!("proof, translation or derivation"),
    };
    let bytes = argument(1).parse().expect("a number of bytes");
    shapes.retain(|shape| shape.name.contains(argument(2)));
    assert!(!shapes.is_empty(), "some shape has the name");
    let check = move || {
        for shape in shapes {
            let Some(asked) = asked else {
                translated(&shape.obligation, &shape.second);
                continue;
            };
            let answer = desk::answer(asked, &shape.obligation, &shape.second);
            assert!(answer.is_accepted(), "{}: {answer}", shape.name);
        }
    };
    let thread = Builder::new().stack_size(bytes).spawn(check);
    thread.expect("a thread starts").join().expect("it ends");
    println!("ok");
}
