#!/bin/bash
# What the emulated target calls inside its loop over instructions, by callgrind of valgrind: for each loop of data/ the functions that a run calls at
# least once for ten steps, with the calls for a step. The compiler drops `inline(always)` without a word from a function that grows too large: what
# is meant to be in line and isn't stands here.
#   bash tests/calls.sh [PROGRAM]        (from crates/target_vectors; else out/target_vectors)
set -u
program=$(realpath "${1:-out/target_vectors}") || exit 1
data=$(realpath data) || exit 1
folder=$(mktemp -d) || exit 1
trap 'rm -rf "$folder"' EXIT
cd "$folder" || exit 1

# LOOP ROUNDS: callgrind names a function where it comes first, by a number, and by that number alone from then on.
called() {
    valgrind --tool=callgrind --callgrind-out-file=calls "$program" measure "$2" "$data/$1.bin" > out 2> err || { cat err >&2; exit 1; }
    awk -v loop="$1" -v steps="$(grep -o '[0-9]* steps' out | cut -d' ' -f1)" '
        /^c?fn=\(/ {
            id = $0; sub(/^c?fn=/, "", id); name = id; sub(/\).*/, ")", id)
            if (sub(/^\([0-9]*\) /, "", name)) names[id] = name
            if (/^cfn/) callee = id
        }
        /^calls=/ { split($1, part, "="); calls[callee] += part[2] }
        END { for (id in calls) if (calls[id] * 10 >= steps) printf "%-10s %.2f %s\n", loop, calls[id] / steps, names[id] }' calls | sort -k2,2nr
}

called count 3000
called mix 300
called word 2000
called copy 2000
called flash_half 2000
called flash_word 2000
called poll 2000
called wait 4
called program 2
called compiled 2
