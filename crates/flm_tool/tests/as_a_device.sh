#!/bin/bash
# Programs a device of 64 KiB as a user does, with the built program over real files, and compares its cells byte for byte with the image over
# what they held. Then kills the program at random moments (kill -9), and takes the job up again each time until it is done: by turns to its
# image and back to what the cells held when it began.
#   bash tests/as_a_device.sh [PROGRAM [KILLS]]        (from crates/flm_tool; else out/flm_tool and 100 kills)
# It works in a folder of its own, which it leaves where something is wrong, and ends with status 0 where all is as wanted.
set -u
program=$(realpath "${1:-out/flm_tool}") || exit 1
kills=${2:-100}
data=$(realpath ../target_vectors/data) || exit 1
tests=$(realpath tests) || exit 1
folder=$(mktemp -d) || exit 1
cd "$folder" || exit 1
. "$tests/device.sh"
. "$tests/rows.sh"
. "$tests/kills.sh"
size=65536

# New cells, all used, an image at some place, and what they come to: AT BYTES.
made() {
    rm -f job
    random_bytes $size > cells
    random_bytes "$2" > image
    cp cells old
    cp cells new
    lay image "$1" new
    address=$(printf '0x%08X' $((0x08000000 + $1)))
}

board board.toml 64 1024 || exit 1
algorithm a1.flm 64 1024 1024 || exit 1
compiled_algorithm flash.flm 64 1024 256 || exit 1
fpec_board fpec.toml 64 1024 || exit 1
fpec_algorithm fpec.flm 64 1024 256 || exit 1
firmware firmware.elf 3000 || exit 1

# A program without a stop: the firmware of a compiler, by an algorithm in assembler, by one in C, and by one in C for the controller FPEC, over
# cells that are all used.
for algorithm in a1.flm flash.flm fpec.flm; do
    board=board.toml
    [ $algorithm = fpec.flm ] && board=fpec.toml
    made 0 1
    cp old new
    lay firmware.elf.bin 0 new
    "$program" job cells program $board $algorithm firmware.elf > out 2> err
    row "$algorithm: the status" $?
    row "$algorithm: done is the last line" "$([ "$(tail -n 1 out)" = "done" ]; echo $?)"
    row "$algorithm: nothing on standard error" "$([ ! -s err ]; echo $?)"
    row "$algorithm: the cells" "$(same cells new)"
    row "$algorithm: the job is closed" "$(free)"
    "$program" job cells verify $board firmware.elf > out 2> err
    row "$algorithm: verify" $?
    "$program" job cells resume > out 2> err
    row "$algorithm: there is no job to resume" "$([ $? = 7 ]; echo $?)"
    "$program" job cells revert > out 2> err
    row "$algorithm: there is no job to revert" "$([ $? = 7 ]; echo $?)"
    "$program" job cells program $board $algorithm firmware.elf > out 2> err
    row "$algorithm: the same again" $?
    row "$algorithm: has an empty plan" "$([ "$(cat out)" = $'plan none\ncost 0\ndone' ]; echo $?)"
    row "$algorithm: the same cells" "$(same cells new)"
done

# How long a run takes, in microseconds: the longest of three.
span=0
for _ in 1 2 3; do
    made 4660 40000
    from=${EPOCHREALTIME/./}
    "$program" job cells program --raw-at "$address" board.toml a1.flm image > out 2> err
    row 'random bytes: the status' $?
    took=$((${EPOCHREALTIME/./} - from))
    row 'random bytes: the cells' "$(same cells new)"
    [ $took -gt $span ] && span=$took
done
echo "a run takes up to $span microseconds"

# A job at a random place, with the words that carry it out.
begin() {
    made $((RANDOM % 8192)) $((RANDOM % 40000 + 1))
    words=(--raw-at "$address" board.toml a1.flm image)
}

carry_jobs "$kills"
tell_kills
echo "$right right, $wrong wrong"
if [ $wrong = 0 ]; then rm -rf "$folder"; else echo "in $folder"; fi
[ $wrong = 0 ]
