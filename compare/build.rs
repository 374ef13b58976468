//! Links the C library of the proved code.

use std::path::Path;

fn main() {
    let here = std::env::var("CARGO_MANIFEST_DIR").expect("cargo names the package's directory");
    let directory = Path::new(&here).join("../target/staticlib");
    let archive = directory.join("libfavashears.a");
    println!("cargo:rustc-link-search=native={}", directory.display());
    println!("cargo:rerun-if-changed={}", archive.display());
    assert!(
        archive.exists(),
        "target/staticlib/libfavashears.a is missing: run `rt ci` and `bash tests/built.sh` in the repository's root"
    );
    println!("cargo:rustc-link-lib=static=favashears");
}
