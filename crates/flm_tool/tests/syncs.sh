#!/bin/bash
# Runs the built program under strace, and looks at its system calls on the job file, the cells and the job file's folder in their order: the entry is on
# the disk before the job file is read, changed or synced, the cells before each change of the job file and before they are read, byte 0 before the body,
# the body before the gate, the gate before the first cell is changed, and the closed job before status 0 (tests/syncs.awk). So it does with `program`,
# `begin`, `resume`, `revert` and a gang, with a job file that isn't there, with one that has a closed job, and with one that is reached by a link. Then
# each sync fails once, one run for each: nothing is changed behind it, the status says so, and what is left is carried to its end.
#   bash tests/syncs.sh [PROGRAM]        (from crates/flm_tool; else out/flm_tool)
# It wants strace (of Debian's strace), and a file system whose folders can be synced. It works in a folder of its own, which it leaves where something is
# wrong, and ends with status 0 where all is as wanted.
set -u
program=$(realpath "${1:-out/flm_tool}") || exit 1
small=$(realpath ../program_vectors/data/host) || exit 1
tests=$(realpath tests) || exit 1
folder=$(realpath "$(mktemp -d)") || exit 1
cd "$folder" || exit 1
. "$tests/gang_jobs.sh"

# Three devices that are all used, each with a job file in a folder of its own.
board_and_algorithm 4 256 64
for number in 1 2 3; do
    begin_job $number 1024 $((number * 100)) 250
    row "begin of device $number" $?
    mkdir "jobs.$number"
done
mkdir links
ln -s ../jobs.1/job links/job
program_words=(program --raw-at 0x08000064 board.toml a1.flm image.1)
begin_words=(begin "${program_words[@]:1}")

# Traces a run: WORDS.. The run's status is in `status`; sync number `fails`, if it is set, fails.
traced() {
    local inject=()
    if [ -n "$fails" ]; then inject=("--inject=fsync:error=EIO:when=$fails"); fi
    strace -y -s 4 -o trace -e trace=openat,fsync,pread64,pwrite64,ftruncate ${inject[@]+"${inject[@]}"} "$program" "$@" > out 2> err
    status=$?
}

# Looks at the calls of device NUMBER in the trace: NAME NUMBER FIRST STATUS.
in_order() {
    awk -v job="$folder/jobs.$2/job" -v cells="$folder/cells.$2" -v folder="$folder/jobs.$2" -v first="$3" -v status="$4" \
        -f "$tests/syncs.awk" trace > told
    row "$1: the order of device $2: $(grep -v '^syncs' told | tr '\n' ';')" "$([ "$(wc -l < told)" = 1 ] && grep -q '^syncs' told; echo $?)"
}

# The files of device NUMBER before a run of each kind: KIND NUMBER.
stand() {
    cp "old.$2" "cells.$2"
    rm -f "jobs.$2/job"
    case $1 in
        missing) ;;
        linked) : > "jobs.$2/job" ;;
        closed) cp "begun.$2" "jobs.$2/job" && patch "jobs.$2/job" 0 00 ;;
        begun) cp "begun.$2" "jobs.$2/job" ;;
        half) cp "begun.$2" "jobs.$2/job" && lay "image.$2" $(($2 * 100)) "cells.$2" ;;
    esac
}

# Whether device NUMBER has the cells of a FILE and a closed job, after what a failed sync left was carried on: NAME NUMBER COMMAND FILE.
carried() {
    local code
    if [ "$(head -c 1 "jobs.$2/job" | od -An -tx1 | tr -d ' ')" = a5 ]; then
        row "$1: the job is whole" "$(same "jobs.$2/job" "begun.$2")"
        "$program" "jobs.$2/job" "cells.$2" "$3" > out 2> err
        row "$1: $3 of what is left" $?
    elif [ "$(same "cells.$2" "$4")" != 0 ]; then
        row "$1: untouched" "$(same "cells.$2" "old.$2")"
        "$program" "jobs.$2/job" "cells.$2" "${program_words[@]}" > out 2> err
        row "$1: begun anew" $?
    fi
    row "$1: the cells" "$(same "cells.$2" "$4")"
}

# The line of a fault that a status has.
fault_of() { if [ "$1" = 8 ]; then echo 'store fault'; else echo 'device fault'; fi; }

# The status that a failed sync gives: of the cells 9 where it is the first of them, which comes before the break-off, else 8.
wanted_of() {
    local line file
    line=$(grep -n INJECTED trace | head -1 | cut -d: -f1)
    file=$(sed -n "${line}p" trace | grep -o '/cells\.[0-9]')
    if [ -n "$file" ] && ! head -n $((line - 1)) trace | grep '^fsync' | grep -q "$file>"; then
        echo 9
    else
        echo 8
    fi
}

# One command on device 1, whole, and then with each of its syncs failing: the cells are GOAL once it is done, and END once COMMAND has carried on what a
# failed sync left: NAME KIND JOB FIRST GOAL COMMAND END WORDS..
command() {
    local name=$1 kind=$2 job=$3 first=$4 goal=$5 way=$6 end=$7 count wanted
    shift 7
    fails=''
    stand "$kind" 1
    traced "$job" cells.1 "$@"
    row "$name: status $status" "$status"
    in_order "$name" 1 "$first" ''
    row "$name: the cells" "$(same cells.1 "$goal")"
    count=$(grep -c '^fsync' trace)
    row "$name: $count syncs" "$([ "$count" -ge 5 ]; echo $?)"
    for fails in $(seq "$count"); do
        stand "$kind" 1
        traced "$job" cells.1 "$@"
        wanted=$(wanted_of)
        row "$name: sync $fails fails: status $status, wanted $wanted" "$([ "$status" = "$wanted" ]; echo $?)"
        row "$name: sync $fails fails: $(cat err)" "$([ "$(cat err)" = "flmprog: $(fault_of "$wanted")" ]; echo $?)"
        in_order "$name: sync $fails fails" 1 "$first" ''
        if [ -e jobs.1/job ]; then carried "$name: sync $fails fails" 1 "$way" "$end"; fi
    done
    failures=$((failures + count))
}

failures=0
command program missing jobs.1/job 00 new.1 resume new.1 "${program_words[@]}"
command 'program over a closed job' closed jobs.1/job 00 new.1 resume new.1 "${program_words[@]}"
command 'program by a link' linked links/job 00 new.1 resume new.1 "${program_words[@]}"
command begin missing jobs.1/job A5 old.1 resume new.1 "${begin_words[@]}"
command 'begin by a link' linked links/job A5 old.1 resume new.1 "${begin_words[@]}"
command resume begun jobs.1/job 00 new.1 resume new.1 resume
command 'resume by a link' begun links/job 00 new.1 resume new.1 resume
command revert half jobs.1/job 00 old.1 revert old.1 revert

# A gang of three: each sync fails once, which is one device's; the others come to their ends.
gang_words=(--gang jobs.1/job cells.1 jobs.2/job cells.2 jobs.3/job cells.3)
gang_run() {
    local number
    for number in 1 2 3; do stand begun $number; done
    traced "${gang_words[@]}"
}
fails=''
gang_run
row "gang: status $status" "$status"
row 'gang: the lines' "$([ "$(cat out)" = $'target 1 done\ntarget 2 done\ntarget 3 done' ]; echo $?)"
count=$(grep -c '^fsync' trace)
for number in 1 2 3; do
    in_order gang $number 00 0
    row "gang: the cells of device $number" "$(same cells.$number new.$number)"
done
for fails in $(seq "$count"); do
    gang_run
    at="gang: sync $fails fails"
    wanted=$(wanted_of)
    hit=$(grep INJECTED trace | grep -o '\(jobs\|cells\)\.[0-9]' | grep -o '[0-9]')
    row "$at: status $status, wanted $wanted" "$([ "$status" = "$wanted" ]; echo $?)"
    lines=''
    for number in 1 2 3; do
        if [ $number = "$hit" ]; then lines+="target $number $(fault_of "$wanted")"$'\n'; else lines+="target $number done"$'\n'; fi
    done
    row "$at: the lines" "$([ "$(cat out)" = "${lines%$'\n'}" ]; echo $?)"
    for number in 1 2 3; do
        if [ $number = "$hit" ]; then
            in_order "$at" $number 00 "$wanted"
            carried "$at" $number resume new.$number
        else
            in_order "$at" $number 00 0
            row "$at: the cells of device $number" "$(same cells.$number new.$number)"
        fi
    done
done
failures=$((failures + count))

echo "$failures syncs failed, one a run"
echo "$right right, $wrong wrong"
if [ $wrong = 0 ]; then rm -rf "$folder"; else echo "in $folder"; fi
[ $wrong = 0 ]
