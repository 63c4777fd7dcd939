#!/bin/bash
# Kills the built program at each of the first system calls of a `program` or a `begin` over real files, one run for each call. After each kill the device is
# untouched, the job is whole in its file, or the job is finished; a job that is whole is resumed on one copy of both files and reverted on
# another, and the cells are compared byte for byte.
#   bash tests/kill_at_each_call.sh [PROGRAM [CALLS [REGIONS [STEP [COMMAND]]]]]
#                              (from crates/flm_tool; else out/flm_tool, 1,000 calls, 1 region, each call, and program)
# With 2 for REGIONS the device has 64 KiB and an information region of 2 KiB, each with an algorithm of its own; then one call of STEP is
# killed. COMMAND is `program` or `begin`.
# It wants strace (of Debian's strace). It works in a folder of its own, which it leaves where something is wrong, and ends with status 0 where
# all is as wanted.
set -u
program=$(realpath "${1:-out/flm_tool}") || exit 1
calls=${2:-1000}
regions=${3:-1}
step=${4:-1}
command=${5:-program}
data=$(realpath ../session_vectors/data) || exit 1
small=$(realpath ../program_vectors/data/host) || exit 1
tests=$(realpath tests) || exit 1
folder=$(mktemp -d) || exit 1
cd "$folder" || exit 1
. "$tests/rows.sh"
. "$tests/bytes.sh"

# A record of Intel HEX, of its bytes but the sum as pairs of digits.
record() {
    local sum=0 at
    for ((at = 0; at < ${#1}; at += 2)); do
        sum=$((sum + 0x${1:at:2}))
    done
    printf ':%s%02X\n' "$1" $((-sum & 255))
}

# The records of a FILE from an ADDRESS on, which lie in one stretch of 64 KiB.
records() {
    local at=$(($2 & 65535)) line
    record "$(printf '02000004%04X' $(($2 >> 16)))"
    while read -r line; do
        record "$(printf '%02X%04X00%s' $((${#line} / 2)) $at "$line")"
        at=$((at + ${#line} / 2))
    done < <(od -An -v -tx1 -w16 "$1" | tr -d ' ' | tr a-f A-F)
}

# The device, all used; an image of 1,000 bytes in two of its sectors; and the cells that they come to.
one_region() {
    size=$((13 * 768))
    cp "$data/windows.toml" board.toml
    cp "$data/a1_windows.flm" a1.flm
    head -c $size /dev/urandom > old
    head -c 1000 /dev/urandom > image
    cp old new
    dd status=none if=image of=new bs=1 seek=1000 conv=notrunc
    words=(job cells "$command" --raw-at 0x080003E8 board.toml a1.flm image)
}

# The same on two regions, with 300 bytes more in the second one. The algorithm of 4 sectors of 256 bytes has its base at 360, its size at 364 and
# the size of its sectors at 388.
two_regions() {
    size=$((65536 + 2048))
    {
        printf '[ram]\nbase = 0x20000000\nsize = 4096\n[[region]]\nbase = 0x08000000\nsectors = [[64, 1024]]\n'
        printf '[[region]]\nbase = 0x1FFFF000\nsectors = [[2, 1024]]\n[controller]\nbase = 0x40022000\n'
    } > board.toml
    cp "$small/a1.flm" a1.flm
    patch a1.flm 364 00000100
    patch a1.flm 388 00040000
    cp a1.flm info.flm
    patch info.flm 360 00F0FF1F00080000
    head -c $size /dev/urandom > old
    head -c 1000 /dev/urandom > image
    head -c 300 /dev/urandom > more
    cp old new
    dd status=none if=image of=new bs=1 seek=1000 conv=notrunc
    dd status=none if=more of=new bs=1 seek=$((65536 + 900)) conv=notrunc
    {
        records image $((0x080003E8))
        records more $((0x1FFFF384))
        echo ':00000001FF'
    } > both.hex
    words=(job cells "$command" board.toml a1.flm info.flm both.hex)
}

if [ "$regions" = 2 ]; then two_regions; else one_region; fi

# The files as they are before.
begin() {
    rm -f job
    cp old cells
}

# A run that isn't killed: the system calls that it makes, one a line, by their names. The first starts the program.
begin
strace -o trace "$program" "${words[@]}" > out 2> err
row 'the status' $?
if [ "$command" = program ]; then
    row 'the cells' "$(same cells new)"
    row 'the job is closed' "$(free)"
else
    row 'the cells' "$(same cells old)"
    row 'the job is open' "$([ "$(free)" != 0 ]; echo $?)"
fi
sed -n 's/^\([a-z0-9_]*\)(.*/\1/p' trace | tail -n +2 > all
head -n "$calls" all > names
echo "$(wc -l < all) system calls"
if [ $wrong != 0 ]; then
    echo "in $folder"
    exit 1
fi

untouched=0
whole=0
finished=0

# Goes on with a copy of the files that a kill left, by a COMMAND that brings the cells to a FILE.
go_on() {
    cp killed.job job
    cp killed.cells cells
    "$program" job cells "$1" > out 2> err
    row "$at: $1" $?
    row "$at: $1: done is the last line" "$([ "$(tail -n 1 out)" = "done" ]; echo $?)"
    row "$at: $1: the cells" "$(same cells "$2")"
    row "$at: $1: the job is closed" "$(free)"
}

# What a kill left.
look() {
    row "$at: as many cells" "$([ "$(wc -c < cells)" = $size ]; echo $?)"
    if [ "$(free)" != 0 ]; then
        whole=$((whole + 1))
        cp job killed.job
        cp cells killed.cells
        go_on resume new
        go_on revert old
    elif [ "$(same cells old)" = 0 ]; then
        untouched=$((untouched + 1))
    else
        row "$at: finished" "$(same cells new)"
        finished=$((finished + 1))
    fi
}

# Kills a run at each call, found by its name and by how many of this name came before.
declare -A seen
killed=0
reached=0
while read -r name; do
    seen[$name]=$((${seen[$name]:-0} + 1))
    reached=$((reached + 1))
    if [ $((reached % step)) != 0 ]; then continue; fi
    killed=$((killed + 1))
    at="call $reached, $name ${seen[$name]}"
    begin
    (
        strace -o /dev/null --inject="$name:signal=KILL:when=${seen[$name]}" "$program" "${words[@]}" > out 2> err
        exit $?
    ) 2> /dev/null
    row "$at: killed" "$([ $? = 137 ]; echo $?)"
    look
done < names

echo "$killed kills: $untouched times untouched, $whole times whole, $finished times finished"
row 'as many kills as calls' "$([ $killed -gt 0 ] && [ $killed = $(($(wc -l < names) / step)) ]; echo $?)"
if [ "$step" = 1 ] && cmp -s all names; then
    row 'each came that may' "$([ $untouched -gt 0 ] && [ $whole -gt 0 ] && { [ $finished -gt 0 ] || [ "$command" = begin ]; }; echo $?)"
fi
echo "$right right, $wrong wrong"
if [ $wrong = 0 ]; then rm -rf "$folder"; else echo "in $folder"; fi
[ $wrong = 0 ]
