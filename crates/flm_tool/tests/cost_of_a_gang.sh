#!/bin/bash
# Measures a gang of sixteen devices of 1 MiB on real files, all of which is erased and programmed, against `resume` of the same jobs one after the other:
# wall time, processor time (in user mode and in the system together), and the most memory. The cells are compared byte for byte. At the end stands the
# table of docs/MEASURED.md: the least of all rounds, and the gang's as a multiple of the sum of the sixteen alone, which may not be above 1.1.
#   bash tests/cost_of_a_gang.sh [PROGRAM [TIMES [DEVICES [SECTORS]]]]
#                                    (from crates/flm_tool; else out/flm_tool, once, 16 devices, and 1,024 sectors of 1,024 bytes)
set -u
program=$(realpath "${1:-out/flm_tool}") || exit 1
times=${2:-1}
devices=${3:-16}
sectors=${4:-1024}
small=$(realpath ../program_vectors/data/host) || exit 1
tests=$(realpath tests) || exit 1
folder=$(mktemp -d) || exit 1
trap 'rm -rf "$folder"' EXIT
cd "$folder" || exit 1
. "$tests/gang_jobs.sh"
all=$(seq "$devices")
measures='wall processor memory'
declare -A least sum now

# Runs the program, and takes what it cost into `now`: WORDS..
measure() {
    /usr/bin/time -q -f '%e %U %S %M' -o time "$program" "$@" > out 2> err
    row "$1: the status" $?
    local user system
    read -r now[wall] user system now[memory] < time
    now[processor]=$(plus "$user" "$system")
}

# The smaller of two numbers, and their sum.
smaller() { awk -v a="$1" -v b="$2" 'BEGIN { print (a < b) ? a : b }'; }
plus() { awk -v a="$1" -v b="$2" 'BEGIN { print a + b }'; }

# Notes a cost where it is the least of its kind so far: KIND MEASURE COST.
note() { least[$1/$2]=$(smaller "$3" "${least[$1/$2]:-999999999}"); }

board_and_algorithm "$sectors" 1024 1024
for round in $(seq "$times"); do
    for number in $all; do
        begin_job "$number" $((sectors * 1024)) 0 $((sectors * 1024))
        row "begin of device $number" $?
    done
    # shellcheck disable=SC2086
    pairs $all
    measure --gang "${words[@]}"
    for name in $measures; do
        note gang "$name" "${now[$name]}"
    done
    echo "round $round, the gang: ${now[wall]} s of wall time, ${now[processor]} s of processor time, ${now[memory]} KiB"
    for name in $measures; do
        sum[$name]=0
    done
    for number in $all; do
        cmp -s "cells.$number" "image.$number"
        row "the gang: the cells of device $number" $?
        cp "old.$number" "cells.$number"
        cp "begun.$number" "job.$number"
        measure "job.$number" "cells.$number" resume
        cmp -s "cells.$number" "image.$number"
        row "alone: the cells of device $number" $?
        for name in $measures; do
            sum[$name]=$(plus "${sum[$name]}" "${now[$name]}")
        done
    done
    echo "round $round, alone: ${sum[wall]} s of wall time, ${sum[processor]} s of processor time, ${sum[memory]} KiB, in all"
    for name in $measures; do
        note alone "$name" "${sum[$name]}"
    done
done
echo "| $devices devices, $(date '+%-d %B %Y') | By one gang | By \`resume\`, one after the other | Times |"
echo '|---|---|---|---|'
for name in $measures; do
    share=$(awk -v a="${least[gang/$name]}" -v b="${least[alone/$name]}" 'BEGIN { printf "%.3f", (b > 0) ? a / b : 1 }')
    unit=s
    [ "$name" != memory ] || unit=KiB
    echo "| $name | ${least[gang/$name]} $unit | ${least[alone/$name]} $unit | $share |"
    row "$name: $share times" "$(awk -v s="$share" 'BEGIN { print (s <= 1.1) ? 0 : 1 }')"
done
[ $wrong = 0 ]
