#!/bin/bash
# Measures jobs of random bytes over random cells, on real files, and prints the table of docs/MEASURED.md: `program` of each size of a device, for the
# largest also `status`, `resume` and `revert` of a job that was begun, and `status` when it is closed; and the demonstration. Of all rounds the least
# times count, and the most memory. The cells are compared byte for byte.
#   bash tests/cost.sh [--counted] [PROGRAM [TIMES [OLD]]]
#                                            (from crates/flm_tool; else out/flm_tool, each size once; OLD is measured in turn with it)
# With --counted it prints the host's instructions instead (callgrind of valgrind), which no other work changes, of smaller devices: of each command of a
# job, of what reads, and of a gang of sixteen; with OLD beside it, and by how much more or fewer they are than OLD's.
set -u
counted=
[ "${1:-}" != --counted ] || { counted=yes; shift; }
program=$(realpath "${1:-out/flm_tool}") || exit 1
times=${2:-1}
programs=("$program")
[ $# -lt 3 ] || programs+=("$(realpath "$3")") || exit 1
data=$(realpath ../target_vectors/data) || exit 1
tests=$(realpath tests) || exit 1
folder=$(mktemp -d) || exit 1
trap 'rm -rf "$folder"' EXIT
cd "$folder" || exit 1
. "$tests/device.sh"
wrong=0
names=()
declare -A found

# A command, whose status must be 0: NAME AT WORDS.., where AT is the program's number. What it cost is added to what was counted of this name.
timed() {
    local name=$1 at=$2 by=(/usr/bin/time -q -f '%U %S %e %M' -o time)
    [ -z "$counted" ] || by=(valgrind --tool=callgrind --callgrind-out-file=/dev/null --log-file=time)
    shift 2
    "${by[@]}" "${programs[at]}" "$@" > out 2> err
    right "$name" $? 0
    [ -n "${found[$name/0]:-}" ] || names+=("$name")
    if [ -n "$counted" ]; then
        found[$name/$at]=$((${found[$name/$at]:-0} + $(grep -o 'Collected : [0-9]*' time | cut -d' ' -f3)))
        return
    fi
    found[$name/$at]=$(echo "$(cat time) ${found[$name/$at]:-999999 999999 999999 0}" | awk '{
        for (k = 1; k <= 3; k++) printf "%s ", ($k < $(k + 4)) ? $k : $(k + 4)
        print ($4 > $8) ? $4 : $8 }')
}

# Counts a status that isn't the wanted one: NAME STATUS WANTED.
right() {
    [ "$2" = "$3" ] && return
    echo "wrong: $1, status $2, $(head -n 1 err)"
    wrong=$((wrong + 1))
}

# Counts cells that aren't the file's bytes: NAME FILE.
same() {
    cmp -s cells "$2" && return
    echo "wrong: $1, the cells"
    wrong=$((wrong + 1))
}

# What a device is called: SECTORS SIZE.
device() {
    local size=$(($1 * $2)) unit=KiB
    [ $size -lt 1048576 ] || { size=$((size / 1024)); unit=MiB; }
    echo "$((size / 1024)) $unit in $(echo "$1" | sed 's/\(.\)\(...\)$/\1,\2/') sectors"
}

# A size: SECTORS SIZE, with pages of 1,024 bytes. A device of one firmware, all of which is new.
measure() {
    local name at
    name="\`program\` of $(device "$1" "$2")"
    board board.toml "$1" "$2" && algorithm a1.flm "$1" "$2" 1024 || exit 1
    random_bytes $(($1 * $2)) > old
    random_bytes $(($1 * $2)) > image
    for at in "${!programs[@]}"; do
        rm -f job
        cp old cells
        timed "$name" "$at" job cells program --raw-at 0x08000000 board.toml a1.flm image
        same "$name" image
    done
}

# Begins a job: AT.
begin() {
    rm -f job
    cp old cells
    "${programs[$1]}" job cells begin --raw-at 0x08000000 board.toml a1.flm image > out 2> err
    right 'a job that is begun' $? 0
}

# The other commands of the device that was measured last, of SECTORS SIZE.
others() {
    local name at
    name=$(device "$1" "$2")
    for at in "${!programs[@]}"; do
        begin "$at"
        timed "\`status\` of $name" "$at" job cells status
        timed "\`resume\` of $name" "$at" job cells resume
        same "resume of $name" image
        timed "\`status\` of a closed job of $name" "$at" job cells status
        begin "$at"
        head -c $(($1 * $2 / 2)) image > half
        lay half 0 cells
        timed "\`revert\` of $name, half of the image programmed" "$at" job cells revert
        same "revert of $name" old
    done
}

# What calls no algorithm, of the device that was measured last: SECTORS SIZE.
looks() {
    local name at
    name=$(device "$1" "$2")
    for at in "${!programs[@]}"; do
        rm -f job
        cp old cells
        timed "\`plan\` of $name" "$at" job cells plan --raw-at 0x08000000 board.toml a1.flm image
        timed "\`begin\` of $name" "$at" job cells begin --raw-at 0x08000000 board.toml a1.flm image
        timed "\`verify\` of $name" "$at" none image verify --raw-at 0x08000000 board.toml image
        timed "\`compare\` of $name" "$at" none image compare image
    done
}

# A gang of sixteen devices of the size that was measured last, and `resume` of each of the same jobs alone: SECTORS SIZE.
gang() {
    local name at number pairs=() what
    name=$(device "$1" "$2")
    begin 0
    for at in "${!programs[@]}"; do
        for what in gang alone; do
            pairs=()
            for number in $(seq 16); do
                cp job "job.$number"
                cp old "cells.$number"
                pairs+=("job.$number" "cells.$number")
            done
            if [ $what = gang ]; then
                timed "a gang of sixteen of $name" "$at" --gang "${pairs[@]}"
            else
                for number in $(seq 16); do timed "sixteen \`resume\` of $name" "$at" "job.$number" "cells.$number" resume; done
            fi
            for number in $(seq 16); do cmp -s "cells.$number" image || right "$what of $name, the cells" 1 0; done
        done
    done
}

# The rows of what was counted, in millions of instructions.
counted_rows() {
    local name
    echo "| Millions of instructions, $(date '+%-d %B %Y') | The program | The old one | Difference |"
    echo '|---|---|---|---|'
    for name in "${names[@]}"; do
        echo "${found[$name/0]} ${found[$name/1]:-0}" | awk -v name="$name" '{
            printf "| %s | %.2f | %s | %s |\n", name, $1 / 1e6, $2 ? sprintf("%.2f", $2 / 1e6) : "", $2 ? sprintf("%+.1f %%", ($1 / $2 - 1) * 100) : "" }'
    done
}

# The rows of a program: AT.
rows() {
    local name
    for name in "${names[@]}"; do
        echo "${found[$name/$1]}" | awk -v name="$name" '{ printf "| %s | %.2f s | %.2f s | %.2f s | %.0f MB |\n", name, $1, $2, $3, $4 * 1024 / 1e6 }'
    done
}

if [ -n "$counted" ]; then
    measure 64 1024
    gang 64 1024
    measure 1024 1024
    others 1024 1024
    looks 1024 1024
    counted_rows
    [ $wrong = 0 ]
    exit
fi
for _ in $(seq "$times"); do
    measure 64 1024
    measure 1024 1024
    measure 4096 4096
    others 4096 4096
    for at in "${!programs[@]}"; do timed '`demo 7`' "$at" job cells demo 7; done
done
for at in "${!programs[@]}"; do
    echo "| ${programs[at]##*/}, $(date '+%-d %B %Y') | User | System | Wall | Memory |"
    echo '|---|---|---|---|---|'
    rows "$at"
done
[ $wrong = 0 ]
