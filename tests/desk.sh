#!/usr/bin/env bash
# Runs the programs on the stored samples, on files that are too long, and on what they can't read or write, each with the
# usual stack of 8 MiB. Ends with 'N passed, M failed'.
set -euo pipefail
cd "$(dirname "$0")/.."
ulimit -s 8192
samples=tests/samples
work=$(mktemp -d)
trap 'rm -rf "$work"' EXIT
passed=0
failed=0

# expect WHAT WANTED FOUND
expect() {
    if [ "$2" = "$3" ]; then
        passed=$((passed + 1))
    else
        failed=$((failed + 1))
        printf '%s: "%s" is wanted, %s gives "%s"\n' "$1" "$2" "$program" "$3"
    fi
}

# use WHAT: from here on the program for a kind of second file is run, or the one that translates or that lists proofs. A refusal's four numbers stand behind
# `refusal`.
use() {
    kind=$1
    refusal=
    case $1 in
    proof) program=desk ;;
    derivation) program=desk_derivation ;;
    translation) program=desk_translate ;;
    tree) program=desk_tree kind=proof refusal=$'tree 1\nrefused ' ;;
    esac
}

# answers WHAT LINES ARGUMENT..: the lines on standard output, with their end, and nothing on standard error.
answers() {
    local what=$1 lines=$2
    shift 2
    expect "$what" "$lines"$'\n.' "$("target/bin/$program" "$@" 2>&1 && echo .)"
}

# says WHAT MESSAGE ARGUMENT..: the message on standard error, and nothing on standard output.
says() {
    local what=$1 message=$2
    shift 2
    expect "$what" "$message" "$("target/bin/$program" "$@" 2>&1 >"$work/out")"
    expect "$what, standard output" "" "$(cat "$work/out")"
}

# padded FILE LENGTH: the file with zero bytes after it, up to that length.
padded() { cp "$1" "$work/padded" && truncate -s "$2" "$work/padded"; }

# in_parts FILE: the file, with a pause after its first bytes.
in_parts() { head -c 50 "$1" && sleep 0.2 && tail -c +51 "$1"; }

# fails WHAT MESSAGE OUTPUT ARGUMENT..: the message on standard error where standard output is that one, or closed.
fails() {
    local what=$1 message=$2 output=$3
    shift 3
    if [ "$output" = closed ]; then
        expect "$what" "$message" "$("target/bin/$program" "$@" 2>&1 >&-)"
    else
        expect "$what" "$message" "$("target/bin/$program" "$@" 2>&1 >"$output")"
    fi
}

# tries WHAT NAME LINES LONGEST: an accepted sample with its lines, changed in its length, in parts, and not to be read; the bytes of a longest second file.
tries() {
    use "$1"
    local obligation=$samples/$2.obligation second=$samples/$2.$kind lines=$3 longest=$4 usage length
    padded "$obligation" 16384
    answers "an obligation of 1,024 records, its count another" "${refusal}2 1 0 0" "$work/padded" "$second"
    for length in 16385 16400 1000000; do
        padded "$obligation" "$length"
        answers "an obligation of $length bytes" "${refusal}1 1 0 0" "$work/padded" "$second"
    done
    padded "$second" "$longest"
    answers "a $kind of $longest bytes, its count another" "${refusal}2 2 0 0" "$obligation" "$work/padded"
    for length in $((longest + 1)) $((longest + 16)) $((longest + 1000000)); do
        padded "$second" "$length"
        answers "a $kind of $length bytes" "${refusal}1 2 0 0" "$obligation" "$work/padded"
    done
    answers "an empty obligation" "${refusal}1 1 0 0" /dev/null "$second"
    answers "a $kind that comes in parts" "$lines" "$obligation" <(in_parts "$second")
    fails "a closed output" "standard output: Bad file descriptor" closed "$obligation" "$second"
    fails "a full output" "standard output: No space left on device" /dev/full "$obligation" "$second"
    (trap '' PIPE && sleep 0.2 && "target/bin/$program" "$obligation" "$second" 2>"$work/error") | true
    expect "a pipe that nobody reads" "standard output: Broken pipe" "$(cat "$work/error")"
    says "no file" "$work/none: No such file or directory" "$work/none" "$second"
    says "no second file" "$work/none: No such file or directory" "$obligation" "$work/none"
    says "a directory" "$work: Is a directory" "$obligation" "$work"
    usage="usage: $program OBLIGATION ${kind^^}"
    says "one argument" "$usage" "$obligation"
    says "three arguments" "$usage" a b c
}

# translated NAME LINE: a stored proof's line with the derivation's length behind it. Where it accepts there is a file of that
# length, which the derivation check accepts; where it refuses there is none.
translated() {
    local obligation=$samples/$1.obligation file=$folder/$1.derivation length=0 answer
    answer=$("target/bin/$program" "$obligation" "$samples/$1.proof" "$file" 2>&1 && echo .)
    if [ "${2%% *}" = 0 ]; then
        length=$(wc -c <"$file" || echo none)
        expect "$1, the derivation checked" "0 0 0" "$(target/bin/desk_derivation "$obligation" "$file" 2>&1 | cut -d ' ' -f 1-3)"
        rm -f "$file"
    fi
    expect "$1 translated" "$2 $length"$'\n.' "$answer"
    expect "$1, other files" "" "$(ls -A "$folder")"
}

# translations: every stored proof translated; an existing file, what can't be written, what can't be read.
translations() {
    use translation
    local folder=$work/translations d1=("$samples/d1.obligation" "$samples/d1.proof") of name line usage
    mkdir "$folder"
    while read -r of name line; do
        if [ "$of" = proof ]; then translated "$name" "$line"; fi
    done <"$samples/expected"
    padded "$samples/d1.proof" 49169
    answers "a proof of 49169 bytes" "1 2 0 0 0" "$samples/d1.obligation" "$work/padded" "$folder/made"
    expect "a proof of 49169 bytes, files" "" "$(ls -A "$folder")"

    echo kept >"$folder/kept"
    answers "a refused proof over a file" "12 2 12 0 0" "$samples/d2.obligation" "$samples/d2.proof" "$folder/kept"
    expect "no space for the derivation" "$folder/kept: File too large" \
        "$(trap '' XFSZ && ulimit -f 0 && "target/bin/$program" "${d1[@]}" "$folder/kept" 2>&1)"
    expect "files after these" "kept" "$(ls -A "$folder")"
    expect "the file after these" "kept" "$(cat "$folder/kept")"
    mv "$folder/kept" "$folder/made.part"
    says "a file that has the temporary one's name" "$folder/made.part: File exists" "${d1[@]}" "$folder/made"
    expect "that file" "kept" "$(cat "$folder/made.part")"
    mv "$folder/made.part" "$folder/kept"

    says "a folder that is not there" "$folder/none/made: No such file or directory" "${d1[@]}" "$folder/none/made"
    says "a file in the folder's place" "$folder/kept/made: Not a directory" "${d1[@]}" "$folder/kept/made"
    says "a folder in the file's place" "$folder: Is a directory" "${d1[@]}" "$folder"
    says "no proof" "$work/none: No such file or directory" "$samples/d1.obligation" "$work/none" "$folder/made"
    usage="usage: desk_translate OBLIGATION PROOF DERIVATION"
    says "two arguments" "$usage" "${d1[@]}"
    says "four arguments" "$usage" "${d1[@]}" a b
    expect "files after these" "kept" "$(ls -A "$folder")"
    expect "a file beside the folder" "" "$(ls -d "$folder.part" 2>/dev/null)"
}

# deep_lines DEPTH COUNT: the lines of the first nodes of a proof so deep: its leaf is record 5, each node above it two records on.
deep_lines() {
    echo "tree 1"
    awk -v depth="$1" -v count="$2" 'BEGIN {
        for (i = 0; i < count; i++) print i, 5 + 2 * (depth - 1 - i), i < depth - 1 ? "38 3" : "32 0"
    }'
}

# trees: every stored proof listed; the deepest proof, and one too deep; a long text into a pipe with little room, and into a file that may have 4 KiB.
trees() {
    use tree
    local of name line deep=("$samples/e17.obligation" "$work/deep.proof") wanted
    while read -r of name line; do
        if [ "$of" = proof ]; then answers "$name listed" "$(cat "tests/trees/$name")" "$samples/$name.obligation" "$samples/$name.proof"; fi
    done <"$samples/expected"
    target/samples_c "$work" proof 1025
    answers "a proof 1,025 nodes deep listed" "$(deep_lines 1025 1024)"$'\nrefused 17 2 7 1024' "${deep[@]}"
    target/samples_c "$work" proof 1024
    wanted=$(deep_lines 1024 1024)
    answers "a proof 1,024 nodes deep listed" "$wanted" "${deep[@]}"
    expect "a listing by several writes" "$wanted"$'\n.' "$(target/slow_c target/bin/desk_tree "${deep[@]}" 2>&1 && echo .)"
    expect "a listing into a file that is too small" "standard output: File too large" \
        "$(trap '' XFSZ && ulimit -f 4 && target/bin/desk_tree "${deep[@]}" 2>&1 >"$work/out")"
    expect "the part that is there" "$(head -c 4096 <<<"$wanted")" "$(cat "$work/out")"
}

while read -r of name line; do
    use "$of"
    answers "$name" "$line" "$samples/$name.obligation" "$samples/$name.$kind"
done <"$samples/expected"

tries proof d1 "0 0 0 2" 49168
tries derivation e1 "0 0 0 26" 3200016
tries tree t1 "$(cat tests/trees/t1)" 49168

# The deepest derivation, and one too deep.
use derivation
target/samples_c "$work" derivation 8192
answers "a derivation 8,192 nodes deep" "0 0 0 8192" "$samples/e17.obligation" "$work/deep.derivation"
target/samples_c "$work" derivation 8193
answers "a derivation 8,193 nodes deep" "18 2 4 8193" "$samples/e17.obligation" "$work/deep.derivation"

translations
trees

echo "$passed passed, $failed failed"
[ "$failed" -eq 0 ]
