#!/usr/bin/env bash
# Proof steps a second that metamath verifies on set.mm, to hold beside the nodes a second of the benchmark's full proofs.
# Optional, and installs nothing: Debian's packages `metamath` and `metamath-databases` have both.
set -euo pipefail
base=${1:-/usr/share/metamath/databases/set.mm}
command -v metamath >/dev/null && [ -r "$base" ] || { echo "metamath or $base is not there" >&2; exit 1; }

# A step is a label of a proof, or in a compressed proof a number, each of which ends with a letter from A to T.
steps=$(awk '{
    for (i = 1; i <= NF; i++) {
        if ($i == "$(") comment = 1
        else if ($i == "$)") comment = 0
        else if (comment) continue
        else if ($i == "$=") { proof = 1; labels = 0 }
        else if ($i == "$.") proof = 0
        else if (proof && $i == "(") labels = 1
        else if (proof && $i == ")") labels = 2
        else if (proof && labels == 0) steps++
        else if (proof && labels == 2) steps += gsub(/[A-T]/, "", $i)
    }
} END { print steps }' "$base")

# Metamath tells the processor time of the verification alone, without that of reading the file.
seconds=$(cd "$(dirname "$base")" && metamath "read \"$(basename "$base")\"" 'verify proof *' exit |
    sed -nE 's/^All proofs in the database were verified in ([0-9.]+) s\.$/\1/p')
[ -n "$seconds" ] || { echo "metamath did not verify $base" >&2; exit 1; }
awk -v steps="$steps" -v seconds="$seconds" 'BEGIN { printf "metamath: %d steps in %s s, %.0f steps a second\n", steps, seconds, steps / seconds }'
