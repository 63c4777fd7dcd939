#!/bin/bash
# Measures the emulated target against the interpreter data/interpreter.c of the same table (gcc -O2), and prints the table of docs/MEASURED.md. For
# each loop of data/: the steps; the least user time of all rounds over the bench in memory, over files, and of the interpreter, which run in turn; and
# the host's instructions for a step of the target and of the interpreter (callgrind of valgrind, by the difference of two runs), where that is there.
#   bash tests/speed.sh [PROGRAM [ROUNDS]]        (from crates/target_vectors; else out/target_vectors, five rounds)
set -u
program=$(realpath "${1:-out/target_vectors}") || exit 1
rounds=${2:-5}
data=$(realpath data) || exit 1
folder=$(mktemp -d) || exit 1
trap 'rm -rf "$folder"' EXIT
cd "$folder" || exit 1
gcc -O2 -w -o interpreter "$data/interpreter.c" || exit 1

# The user time of a command, in milliseconds.
user() { /usr/bin/time -f %U -o time "$@" > out || exit 1; awk '{ printf "%d", $1 * 1000 }' time; }

# The steps that the last command made.
steps() { grep -o '[0-9]* steps' out | cut -d' ' -f1; }

# The host's instructions and the steps of a command.
counted() {
    valgrind --tool=callgrind --callgrind-out-file=/dev/null "$@" > out 2> err || exit 1
    echo "$(grep -o 'Collected : [0-9]*' err | cut -d' ' -f3) $(steps)"
}

# The host's instructions for a step, by what twice as many rounds take more: LOOP COUNT COMMAND..
instructions() {
    local loop=$data/$1.bin count=$2
    shift 2
    command -v valgrind > few || { printf '%s' -; return; }
    counted "$@" "$count" "$loop" > few
    counted "$@" $((2 * count)) "$loop" > many
    paste -d' ' few many | awk '{ printf "%.1f", ($3 - $1) / ($4 - $2) }'
}

# A line of the table: LOOP COUNT FEW WHAT. COUNT rounds are timed, FEW are counted.
measure() {
    local memory=999999 files=999999 c=999999 made t
    for _ in $(seq "$rounds"); do
        t=$(user "$program" measure "$2" "$data/$1.bin"); memory=$((t < memory ? t : memory))
        t=$(user ./interpreter "$2" "$data/$1.bin"); c=$((t < c ? t : c))
        head -c 1024 /dev/zero | tr '\0' '\377' > cells
        t=$(user "$program" files cells "$2" "$data/$1.bin"); files=$((t < files ? t : files))
        made=$(steps)
    done
    awk -v what="$4" -v name="$1" -v made="$made" -v m=$memory -v f=$files -v c=$c -v ours="$(instructions "$1" "$3" "$program" measure)" \
        -v theirs="$(instructions "$1" "$3" ./interpreter)" 'BEGIN {
            printf "| `%s`: %s | %.0f million | %.2f s | %.2f s | %.2f s | %s | %s |\n", name, what, made / 1e6, m / 1000, f / 1000, c / 1000, ours, theirs }'
}

echo "| Loop, $(date '+%-d %B %Y') | Steps | In memory | Over files | The C interpreter | Instructions a step | Of the C interpreter |"
echo '|---|---|---|---|---|---|---|'
measure count 30000000 3000 '`SUBS`, `BNE`'
measure mix 4000000 300 'mixed instructions with calls'
measure word 15000000 2000 'a word loaded and stored'
measure copy 15000000 2000 'a byte loaded and stored'
measure flash_half 15000000 2000 'a halfword of the flash loaded'
measure flash_word 15000000 2000 'a word of the flash loaded'
measure poll 15000000 2000 'STATUS read'
measure wait 15000 4 'a chip erased, mostly the wait for its end'
measure program 2000 2 'a chip erased and programmed'
measure compiled 10000 2 'compiled code'
