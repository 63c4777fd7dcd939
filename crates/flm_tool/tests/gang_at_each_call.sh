#!/bin/bash
# Kills the built program at each of its system calls while it carries a gang of three small devices, one run for each call. After each kill every job is
# whole in its file, or its device is finished; then the same words carry on what stands, and the cells are compared byte for byte. At the end two pairs
# with one file, where the system has no locks.
#   bash tests/gang_at_each_call.sh [PROGRAM [STEP]]        (from crates/flm_tool; else out/flm_tool, and each call; with STEP one of so many)
# It wants strace (of Debian's strace). It works in a folder of its own, which it leaves where something is wrong, and ends with status 0 where all is as
# wanted.
set -u
program=$(realpath "${1:-out/flm_tool}") || exit 1
step=${2:-1}
small=$(realpath ../program_vectors/data/host) || exit 1
tests=$(realpath tests) || exit 1
folder=$(mktemp -d) || exit 1
cd "$folder" || exit 1
. "$tests/gang_jobs.sh"

# Three jobs on devices that are all used.
board_and_algorithm 4 256 64
for number in 1 2 3; do
    begin_job $number 1024 $((number * 100)) 250
    row "begin of device $number" $?
done
pairs 1 2 3

# The files as they were begun.
begin() {
    local number
    for number in 1 2 3; do
        cp "old.$number" "cells.$number"
        cp "begun.$number" "job.$number"
    done
}

# A run that isn't killed: the system calls that it makes, one a line, by their names. The first starts the program.
strace -o trace "$program" --gang "${words[@]}" > out 2> err
row 'the status' $?
for number in 1 2 3; do
    finished 'a whole run' $number
done
sed -n 's/^\([a-z0-9_]*\)(.*/\1/p' trace | tail -n +2 > names
echo "$(wc -l < names) system calls"
if [ $wrong != 0 ]; then
    echo "in $folder"
    exit 1
fi

killed=0
reached=0
whole=0
closed=0

# What a kill left of each device, and what the same words then answer.
look() {
    local number lines='' status=0
    for number in 1 2 3; do
        if [ "$(same "job.$number" "begun.$number")" = 0 ]; then
            whole=$((whole + 1))
            lines+="target $number done"$'\n'
        else
            closed=$((closed + 1))
            finished "$at" $number
            lines+="target $number job: none"$'\n'
            status=7
        fi
    done
    "$program" --gang "${words[@]}" > out 2> err
    row "$at: the status of the next" "$([ $? = $status ]; echo $?)"
    row "$at: the lines of the next" "$([ "$(cat out)" = "${lines%$'\n'}" ]; echo $?)"
    for number in 1 2 3; do
        finished "$at: the next" $number
    done
}

# Kills a run at each call, found by its name and by how many of this name came before.
declare -A seen
while read -r name; do
    seen[$name]=$((${seen[$name]:-0} + 1))
    reached=$((reached + 1))
    if [ $((reached % step)) != 0 ]; then continue; fi
    killed=$((killed + 1))
    at="call $reached, $name ${seen[$name]}"
    begin
    (
        strace -o /dev/null --inject="$name:signal=KILL:when=${seen[$name]}" "$program" --gang "${words[@]}" > out 2> err
        exit $?
    ) 2> /dev/null
    row "$at: killed" "$([ $? = 137 ]; echo $?)"
    look
done < names

# Where the file system has no locks (each flock is made to fail so) two pairs with one file are kept apart all the same: the later one is refused, and
# its job stands.
begin
strace -o locks -e trace=flock --inject=flock:error=ENOLCK "$program" --gang job.1 cells.1 job.2 cells.1 > out 2> err
row 'no locks, cells twice: the status' "$([ $? = 9 ]; echo $?)"
row 'no locks, cells twice: no lock was had' "$(grep -q INJECTED locks && ! grep -q ' = 0' locks; echo $?)"
row 'no locks, cells twice: the lines' "$([ "$(cat out)" = $'target 1 done\ntarget 2 device fault' ]; echo $?)"
finished 'no locks, cells twice' 1
row 'no locks, cells twice: the other job stands' "$(same job.2 begun.2)"
begin
strace -o locks -e trace=flock --inject=flock:error=ENOLCK "$program" --gang job.1 cells.1 job.1 cells.2 > out 2> err
row 'no locks, a job file twice: the status' "$([ $? = 8 ]; echo $?)"
row 'no locks, a job file twice: the lines' "$([ "$(cat out)" = $'target 1 done\ntarget 2 store fault' ]; echo $?)"
finished 'no locks, a job file twice' 1
row 'no locks, a job file twice: the other cells' "$(same cells.2 old.2)"

echo "$killed kills: $whole times a job whole, $closed times a device finished"
if [ "$step" = 1 ]; then
    row 'each came' "$([ $whole -gt 0 ] && [ $closed -gt 0 ]; echo $?)"
fi
echo "$right right, $wrong wrong"
if [ $wrong = 0 ]; then rm -rf "$folder"; else echo "in $folder"; fi
[ $wrong = 0 ]
