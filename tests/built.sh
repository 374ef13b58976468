#!/usr/bin/env bash
# Puts what `rt ci` made where the tests look for it: the programs into target/bin, and the library for C as target/staticlib/libfavashears.a. `rt ci` proves that
# library and makes no archive of it; here it is compiled over the libraries that `rt ci` left, with no proof but that of favashears_c itself.
set -euo pipefail
cd "$(dirname "$0")/.."
kit=$(dirname "$(rt doc)")
archive=$PWD/target/staticlib/libfavashears.a

mkdir -p target/bin target/staticlib
for program in desk desk_derivation desk_translate desk_tree; do
    cp "crates/$program/out/$program" target/bin/
done

cd crates/favashears_c
if compgen -G '../*/out/rlib/stamp' >/dev/null; then
    # Libraries of `rt check`, which `rt ci` gave back: rt knows which of them still hold.
    rt lib
    cp out/libfavashears_c.a "$archive"
else
    words=(--crate-name favashears_c src/lib.rt --crate-type staticlib --extern "std=$kit/rlibs/std.rlib" -L "dependency=$kit/rlibs")
    for library in $(sed -nE 's/^favashears_c staticlib: //p' ../../crates.txt); do
        words+=(--extern "$library=../$library/out/rlib/$library.rlib")
    done
    for folder in ../*/out/rlib; do words+=(-L "dependency=$folder"); done
    words+=(--antt-project "$kit/rattle/logic/antt-project.json" --logic-built "$kit/logic_built" --jobs 2)
    "$kit/bin/rattle" build "${words[@]}" --toolchain "$kit/toolchain" --backend llvm -o "$archive"
fi
