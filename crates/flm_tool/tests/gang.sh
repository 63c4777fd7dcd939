#!/bin/bash
# Runs the built program with --gang over sixteen devices of 64 KiB and over others, and compares lines, status, cells and job files with what is wanted:
# the image over what each device held, worked out here, and what `resume` of the same job alone answers and leaves. Then kills gangs of sixteen at
# random moments (kill -9), and goes on with --gang each time until every device has its image; and ten gangs of sixteen with A1 to A7, each gone on
# with as alone.
#   bash tests/gang.sh [PROGRAM [KILLS]]        (from crates/flm_tool; else out/flm_tool and 100 kills)
# It wants flock and script (of Debian's util-linux and bsdutils). It works in a folder of its own, which it leaves where something is wrong, and ends
# with status 0 where all is as wanted.
set -u
program=$(realpath "${1:-out/flm_tool}") || exit 1
kills=${2:-100}
small=$(realpath ../program_vectors/data/host) || exit 1
others=$(realpath ../session_vectors/data) || exit 1
tests=$(realpath tests) || exit 1
folder=$(mktemp -d) || exit 1
cd "$folder" || exit 1
. "$tests/gang_jobs.sh"
size=65536
usage='flmprog: usage: flm_tool JOB CELLS COMMAND [WORDS]'

# Compares what was wanted and found: NAME WANTED FOUND.
equal() {
    [ "$2" = "$3" ]
    row "$1: wanted '$2', found '$3'" $?
}

# Whether a job file stands, byte for byte as it was begun: 0.
is_open() { same "job.$1" "begun.$1"; }

# A job of random bytes on a device of 64 KiB: NUMBER.
begin_random() {
    begin_job "$1" $size $((RANDOM % 8192)) $((RANDOM % 40000 + 1))
    row "begin of device $1" $?
}

# Runs a gang: NAME STATUS OUT ERR WORDS..
gang() {
    local name=$1 status=$2 out=$3 err=$4
    shift 4
    "$program" --gang "$@" > out 2> err
    equal "$name: the status" "$status" $?
    equal "$name: the lines" "$out" "$(cat out)"
    equal "$name: standard error" "$err" "$(cat err)"
}

# The lines of targets that are all done: COUNT.
all_done() {
    local number
    for number in $(seq "$1"); do
        echo "target $number done"
    done
}

# A device that is as it was when its job was begun: NAME NUMBER.
untouched() {
    row "$1: the cells of device $2 are untouched" "$(same "cells.$2" "old.$2")"
    row "$1: the job of device $2 stands" "$(is_open "$2")"
}

board_and_algorithm 64 1024 1024

# Gangs of one, two and sixteen; and each of the same jobs alone gives the same bytes.
for count in 1 2 16; do
    for number in $(seq "$count"); do
        begin_random "$number"
        cp "cells.$number" "cells.alone.$number"
        cp "job.$number" "job.alone.$number"
    done
    # shellcheck disable=SC2046
    pairs $(seq "$count")
    gang "a gang of $count" 0 "$(all_done "$count")" '' "${words[@]}"
    for number in $(seq "$count"); do
        finished "a gang of $count" "$number"
        "$program" "job.alone.$number" "cells.alone.$number" resume > out 2> err
        row "device $number alone: the status" $?
        row "device $number alone: the same cells" "$(same "cells.alone.$number" "cells.$number")"
        row "device $number alone: the same job file" "$(same "job.alone.$number" "job.$number")"
    done
done
pairs 1 2
gang 'jobs that are closed' 7 $'target 1 job: none\ntarget 2 job: none' '' "${words[@]}"

# Of each pair of one gang what `resume` of the same files alone answers and leaves: in the lines as on standard error, without its first word. The status
# is that of the first that isn't done: NAME NUMBER..
as_alone() {
    local name=$1 lines='' status=0 number answered index=0
    shift
    for number in "$@"; do
        index=$((index + 1))
        rm -rf "cells.alone.$number" "job.alone.$number"
        [ ! -e "cells.$number" ] || cp -r "cells.$number" "cells.alone.$number"
        [ ! -e "job.$number" ] || cp -r "job.$number" "job.alone.$number"
        "$program" "job.alone.$number" "cells.alone.$number" resume > out 2> err
        answered=$?
        [ $status != 0 ] || status=$answered
        if [ $answered = 0 ]; then
            lines+="target $index done"$'\n'
        else
            lines+="target $index $(sed 's/^flmprog: //' err)"$'\n'
        fi
    done
    pairs "$@"
    gang "$name" $status "${lines%$'\n'}" '' "${words[@]}"
    for number in "$@"; do
        diff -r "cells.alone.$number" "cells.$number" > /dev/null 2>&1 || [ ! -e "cells.$number" ]
        row "$name: the cells of $number" $?
        diff -r "job.alone.$number" "job.$number" > /dev/null 2>&1
        row "$name: the job file of $number" $?
    done
}

# Begins a job with an algorithm at hand on a device of 1,024 cells that are all used: NAME ALGORITHM.
begin_with() {
    rm -rf "job.$1" "cells.$1"
    head -c 1024 /dev/zero | tr '\0' '\21' > "cells.$1"
    random_bytes 300 > "image.$1"
    "$program" "job.$1" "cells.$1" begin --raw-at 0x080000FF "$others/small.toml" "$others/$2" "image.$1" > out 2> err
    row "begin with $2" $?
}

# Gangs of which one or the other isn't done.
mixed() {
    begin_random 1
    begin_random 2
    for name in a2 a3_brief a4 a5 a6 a7 picky; do
        begin_with "$name" "$name.flm"
    done
    begin_with none a1.flm
    : > job.none
    begin_with absent a1.flm
    rm job.absent
    begin_with foreign a1.flm
    printf 'no job file at all' > job.foreign
    begin_with marked a1.flm
    printf '\245no job file either' > job.marked
    begin_with damaged a1.flm
    patch job.damaged 300 77
    begin_with shorter a1.flm
    printf 1234 > cells.shorter
    begin_with missing a1.flm
    rm cells.missing
    begin_with folder a1.flm
    rm job.folder
    mkdir job.folder
    begin_with folders a1.flm
    rm cells.folders
    mkdir cells.folders
}
mixed
as_alone 'a mixed gang' 1 a2 a3_brief none absent foreign 2 marked damaged shorter missing folder folders picky
mixed
as_alone 'a mixed gang in another order' folders picky damaged 1 shorter a3_brief 2 none
mixed
as_alone 'algorithms that keep no duties' a4 a5 a6 a7 1 a3_brief picky 2
rm -rf job.folder cells.folders job.alone.folder cells.alone.folders
# What one of these lines is, worked out by hand: a time-out for the first erasure, and the files' lengths.
begin_with a3_brief a3_brief.flm
begin_with shorter a1.flm
printf 1234 > cells.shorter
begin_random 1
pairs 1 a3_brief shorter
gang 'worked out' 11 $'target 1 done\ntarget 2 call 2 EraseSector: no fuel at 2000003A\ntarget 3 job: 1024 cells wanted, 4 found' '' "${words[@]}"
finished 'worked out' 1

# Words that are no pairs, or too many: nothing is changed, and no file is made. The last of so many words names files that aren't there.
begin_random 1
begin_random 2
pairs 1 2
gang 'no words' 2 '' "$usage"
gang 'one word' 2 '' "$usage" job.1
gang 'three words' 2 '' "$usage" "${words[@]}" job.new
gang 'a word that is no UTF-8' 2 '' "$usage" "${words[@]}" job.new $'\377'
gang 'its own word again' 2 '' "$usage" "${words[@]}" --gang
# shellcheck disable=SC2046
pairs 1 2 $(seq 3 17)
gang 'seventeen pairs' 2 '' "$usage" "${words[@]}"
gang 'sixteen pairs and a half' 2 '' "$usage" "${words[@]:0:33}"
for number in 1 2; do
    untouched 'faulty words' $number
done
row 'faulty words: no file is made' "$([ ! -e job.new ] && [ ! -e job.17 ]; echo $?)"
# A job file of that name is written with its folder.
cp job.1 ./--gang
"$program" ./--gang cells.1 status > out 2> err
equal 'a job file named --gang' 0 $?
rm ./--gang
"$program" --gang cells.1 inspect a1.flm > out 2> err
equal '--gang is no job file: the status' 2 $?
equal '--gang is no job file: standard error' "$usage" "$(cat err)"

# Outputs that fail: all have ended all the same.
for way in closed full; do
    for number in 1 2 3; do
        begin_random $number
    done
    pairs 1 2 3
    if [ $way = closed ]; then
        "$program" --gang "${words[@]}" >&- 2> err
    else
        "$program" --gang "${words[@]}" > /dev/full 2> err
    fi
    equal "standard output $way: the status" 10 $?
    equal "standard output $way: the line" 'flmprog: output fault' "$(cat err)"
    for number in 1 2 3; do
        finished "standard output $way" $number
    done
done
begin_random 1
"$program" --gang job.1 cells.1 job.none cells.none > out 2>&-
equal 'standard error closed: the status' 7 $?
equal 'standard error closed: the lines' $'target 1 done\ntarget 2 job: none' "$(cat out)"
finished 'standard error closed' 1
"$program" --gang > out 2> /dev/full
equal 'standard error full: the status' 2 $?
begin_random 1
"$program" --gang job.1 cells.1 < /dev/null 2>&1 | cat > out
equal 'both streams on one pipe' 'target 1 done' "$(cat out)"

# A terminal shows one line for all devices, and nothing of it goes to standard output.
begin_random 1
begin_random 2
pairs 1 2
script -qec "'$program' --gang ${words[*]} > out" seen > shown < /dev/null
equal 'a terminal: the status' 0 $?
equal 'a terminal: the lines' "$(all_done 2)" "$(cat out)"
row 'a terminal: the line' "$(grep -qa 'cells erased, [0-9]* programmed' shown; echo $?)"
equal 'a terminal: wiped at the end' '0d1b5b4b' "$(tail -c 4 shown | od -An -tx1 | tr -d ' ')"

# Two pairs with one file: the first has it, and the second changes nothing. Its job is carried on by itself then.
# NAME LINE STATUS JOB CELLS, after the pair of device 1
second() {
    gang "$1" "$3" "target 1 done"$'\n'"target 2 $2" '' job.1 cells.1 "$4" "$5"
    finished "$1" 1
}
begin_random 1
second 'the same pair twice' 'store fault' 8 job.1 cells.1
begin_random 1
begin_random 2
second 'a job file twice' 'store fault' 8 job.1 cells.2
row 'a job file twice: the other cells' "$(same cells.2 old.2)"
begin_random 1
begin_random 2
second 'cells twice' 'device fault' 9 job.2 cells.1
row 'cells twice: the other job stands' "$(is_open 2)"
for link in 'ln' 'ln -s'; do
    begin_random 1
    begin_random 2
    $link cells.1 cells.link
    $link job.1 job.link
    second "cells twice, $link" 'device fault' 9 job.2 cells.link
    row "cells twice, $link: the other job stands" "$(is_open 2)"
    begin_random 1
    begin_random 2
    rm cells.link job.link
    $link job.1 job.link
    second "a job file twice, $link" 'store fault' 8 job.link cells.2
    row "a job file twice, $link: the other cells" "$(same cells.2 old.2)"
    rm job.link
done
begin_random 1
begin_random 2
second 'the cells as a job file' 'store fault' 8 cells.1 cells.2
row 'the cells as a job file: the other cells' "$(same cells.2 old.2)"
# A job file that isn't there, twice, and through a link: there is no job, and no cell is changed.
begin_random 1
begin_random 2
ln -s job.gone job.towards
gang 'a job file that is not there, twice' 7 $'target 1 job: none\ntarget 2 job: none' '' job.gone cells.1 job.gone cells.2
rm job.gone
gang 'a job file that is not there, and a link to it' 7 $'target 1 job: none\ntarget 2 job: none' '' job.gone cells.1 job.towards cells.2
row 'a job file that is not there: it is empty' "$([ -e job.gone ] && [ ! -s job.gone ]; echo $?)"
for number in 1 2; do
    untouched 'a job file that is not there' $number
done
rm job.gone job.towards
# A job file as the cells of a job on a device of as many cells.
begin_random 1
begin_job 1 $size 0 $((40000 - ($(wc -c < job.1) - $(wc -c < image.1)) % 4))
length=$(wc -c < job.1)
board_and_algorithm 1 "$length" 1024
begin_job 2 "$length" 0 100
board_and_algorithm 64 1024 1024
second 'a job file as cells' 'device fault' 9 job.2 job.1
row 'a job file as cells: the other job stands' "$(is_open 2)"
gang 'the second alone' 0 'target 1 done' '' job.2 cells.2
finished 'the second alone' 2

# Files that another program has locked.
for number in 1 2 3; do
    begin_random $number
done
pairs 1 2 3
flock -x job.2 "$program" --gang "${words[@]}" > out 2> err
equal 'a locked job file: the status' 8 $?
equal 'a locked job file: the lines' $'target 1 done\ntarget 2 store fault\ntarget 3 done' "$(cat out)"
finished 'a locked job file' 1
untouched 'a locked job file' 2
finished 'a locked job file' 3
begin_random 1
begin_random 3
flock -s cells.2 "$program" --gang "${words[@]}" > out 2> err
equal 'cells that another reads: the status' 9 $?
equal 'cells that another reads: the lines' $'target 1 done\ntarget 2 device fault\ntarget 3 done' "$(cat out)"
finished 'cells that another reads' 1
untouched 'cells that another reads' 2
finished 'cells that another reads' 3
begin_random 1
begin_random 2
begin_random 3
"$program" --gang "${words[@]}" > out 2> err &
one=$!
"$program" --gang "${words[@]}" > out.2 2> err.2
wait $one
equal 'two gangs at once: other lines' '' "$(sed 's/^target [123] //' out out.2 | grep -v -x -e 'done' -e 'store fault' -e 'device fault' -e 'job: none')"
equal 'two gangs at once: so many lines' 6 "$(cat out out.2 | wc -l)"
"$program" --gang "${words[@]}" > out 2> err
equal 'two gangs at once: the third' '' "$(sed 's/^target [123] //' out | grep -v -x -e 'done' -e 'job: none')"
for number in 1 2 3; do
    finished 'two gangs at once' $number
done

# How long a gang of sixteen takes, in microseconds: the longest of three.
all=$(seq 16)
span=0
for _ in 1 2 3; do
    for number in $all; do
        begin_random "$number"
    done
    # shellcheck disable=SC2086
    pairs $all
    from=${EPOCHREALTIME/./}
    "$program" --gang "${words[@]}" > out 2> err
    row 'sixteen devices: the status' $?
    took=$((${EPOCHREALTIME/./} - from))
    [ $took -gt $span ] && span=$took
done
echo "a gang of sixteen takes up to $span microseconds"

# Runs the gang, and kills it at a random moment. The status is 137 where it was killed; by then it has ended, and its locks with it, which
# `timeout` waits for in the foreground alone.
run_and_kill() {
    local after=$(((RANDOM * 32768 + RANDOM) % (span + span / 10) + 1))
    timeout --foreground --preserve-status -s KILL "$((after / 1000000)).$(printf '%06d' $((after % 1000000)))" "$program" --gang "${words[@]}" > out 2> err
}

killed=0
gangs=0
whole=0
closed=0

# What a killed gang left of its devices: the job whole in its file, or the device at its image. Sets `lines` and `status` to what the next one answers.
look() {
    local number
    lines=''
    status=0
    for number in $all; do
        row "killed: as many cells, device $number" "$([ "$(wc -c < "cells.$number")" = $size ]; echo $?)"
        if [ "$(is_open "$number")" = 0 ]; then
            whole=$((whole + 1))
            lines+="target $number done"$'\n'
        else
            closed=$((closed + 1))
            finished killed "$number"
            lines+="target $number job: none"$'\n'
            status=7
        fi
    done
}

# Sixteen jobs, gone on with after each kill until all are done.
carry() {
    local answered
    for number in $all; do
        begin_random "$number"
    done
    lines="$(all_done 16)"$'\n'
    status=0
    while true; do
        run_and_kill
        answered=$?
        if [ $answered != 137 ]; then
            break
        fi
        killed=$((killed + 1))
        look
    done
    equal 'gone on with: the status' $status $answered
    equal 'gone on with: the lines' "${lines%$'\n'}" "$(cat out)"
    for number in $all; do
        finished 'gone on with' "$number"
    done
    gangs=$((gangs + 1))
}

while [ $killed -lt "$kills" ] && [ $wrong = 0 ]; do
    carry
done
echo "$killed kills in $gangs gangs: $whole times a job whole, $closed times a device finished"

# Sixteen targets, with A1 to A7 and others, killed at a random moment: the gang carries on what is left of each as `resume` does alone.
sixteen='1 2 3 4 5 6 a1 a2 a3_brief a4 a5 a6 a7 picky none damaged'
begin_sixteen() {
    local number name
    for number in 1 2 3 4 5 6; do
        begin_random $number
    done
    for name in a1 a2 a3_brief a4 a5 a6 a7 picky; do
        begin_with "$name" "$name.flm"
    done
    begin_with none a1.flm
    : > job.none
    begin_with damaged a1.flm
    patch job.damaged 300 77
    # shellcheck disable=SC2086
    pairs $sixteen
}
begin_sixteen
from=${EPOCHREALTIME/./}
"$program" --gang "${words[@]}" > out 2> err
span=$((${EPOCHREALTIME/./} - from))
stopped=0
for _ in $(seq 30); do
    if [ $stopped = 10 ]; then break; fi
    begin_sixteen
    run_and_kill
    if [ $? = 137 ]; then
        stopped=$((stopped + 1))
        # shellcheck disable=SC2086
        as_alone "sixteen with A1 to A7, kill $stopped" $sixteen
    fi
done
equal 'sixteen with A1 to A7: so many kills' 10 $stopped
echo "$right right, $wrong wrong"
if [ $wrong = 0 ]; then rm -rf "$folder"; else echo "in $folder"; fi
[ $wrong = 0 ]
