#!/usr/bin/env bash
# Each half of the 32 rule bytes (crates/proof_bytes, crates/derivation_bytes) made wrong, one check each: by one more in the code alone, by one more in code and definition, and 15 in
# both where the number is fixed. Where the half is 15, 14 stands for one more and 3 for 15. Each must be refused at a fact: the result of the byte's function, or the law that holds its
# table against the rules' rows. Six wrong halves are must-fail edits of the gate; all of these take some 20 minutes.
set -euo pipefail
cd "$(dirname "$0")/.."
work=$(mktemp -d)
trap 'rm -rf "$work"' EXIT

# The crates and what they depend on, without the edits of the gate; outside the checkout, where `rt ci` would refuse them.
mkdir "$work/crates"
for crate in reader reader_bytes proof_rules proof_bytes derivation_rules derivation_bytes; do
    cp -r "crates/$crate" "$work/crates"
    rm -rf "$work/crates/$crate/must-fail" "$work/crates/$crate/out"
    grep "^$crate:" crates.txt >> "$work/crates.txt"
done

# replace FILE OLD NEW: the lines of an edit that puts NEW for OLD.
replace() { printf 'file: %s\nold: %s\nnew: %s\n' "$1" "$2" "$3"; }

# wrong LABEL CRATE KIND BYTE WRONG_BYTE [alike]: an edit of the code, and of the definition too.
wrong() {
    local line
    {
        replace src/lib.rt "        $3 => $4," "        $3 => $5,"
        if [ "${6:-}" = alike ]; then
            line=$(grep -E -- "-- $3( |$)" "crates/$2/specs/Bytes.antt")
            replace specs/Bytes.antt "$line" "${line/$4/$5}"
        fi
    } > "$work/crates/$2/must-fail/$1.edit"
}

# number_of BYTE HALF
number_of() { if [ "$2" = parts ]; then echo $(($1 / 16)); else echo $(($1 % 16)); fi; }

# with_half BYTE HALF NUMBER: the byte with another number in that half.
with_half() {
    if [ "$2" = parts ]; then printf '0x%x%x' "$3" $(($1 % 16)); else printf '0x%x%x' $(($1 / 16)) "$3"; fi
}

# The two wrong numbers in the place of NUMBER.
wrong_numbers() { if [ "$1" = 15 ]; then echo 14 3; else echo $(($1 + 1)) 15; fi; }

# each_half COMMAND: runs it with calculus, kind, byte, half, number and the two wrong numbers.
each_half() {
    local calculus kind byte half number
    for calculus in proof derivation; do
        while read -r kind byte; do
            for half in parts premises; do
                number=$(number_of "$byte" $half)
                # shellcheck disable=SC2046
                "$1" $calculus "$kind" "$byte" $half "$number" $(wrong_numbers "$number")
            done
        done < <(sed -nE 's/^ +([0-9]+) => (0x[0-9a-f]{2}),.*/\1 \2/p' "crates/${calculus}_bytes/src/lib.rt")
    done
}

write_edits() {
    local crate=$1_bytes label=$2_$4
    mkdir -p "$work/crates/$crate/must-fail"
    wrong "${label}_code" "$crate" "$2" "$3" "$(with_half "$3" "$4" "$6")"
    wrong "${label}_alike" "$crate" "$2" "$3" "$(with_half "$3" "$4" "$6")" alike
    wrong "${label}_other" "$crate" "$2" "$3" "$(with_half "$3" "$4" "$7")" alike
}

# refused CALCULUS LABEL FACT: the edit's first error is at the fact, a pattern, where what was expected and what was found differ once both are computed.
refused() {
    local said
    said=$(grep -m 1 "must-fail $1_bytes/$2.edit: refused" "$work/log") || { echo "$2 is not refused" >&2; exit 1; }
    grep -qE "error: \`$3\`:" <<<"$said" || { echo "$2 is not refused at $3: $said" >&2; exit 1; }
    grep -qE 'the two types (first )?differ|expected type' <<<"$said" || { echo "$2 is refused for want of a computation: $said" >&2; exit 1; }
}

tried=0
read_errors() {
    local label=$2_$4
    refused "$1" "${label}_code" "returns(-in-$2)?"
    refused "$1" "${label}_alike" "$1_$4"
    refused "$1" "${label}_other" "$1_$4"
    echo "$2 $4 $5: $6 in the code refused at the result of $1_byte; $6 and $7 in code and definition at $1_$4"
    tried=$((tried + 3))
}

each_half write_edits
(cd "$work" && rt must-fail proof_bytes derivation_bytes) > "$work/log" 2>&1 || { tail -n 5 "$work/log" >&2; exit 1; }
each_half read_errors
[ "$tried" = 192 ]
echo "$tried wrong halves refused, each at a fact"
