#!/bin/bash
# Takes the cells of random devices out with `dump`, as Intel HEX and as S-records, and has each text read by objcopy, by srec_cat (of the
# package srecord) and by `verify`, byte for byte. Then it compares cells with UF2 files: blocks of 256 bytes with a family, as uf2conv writes
# them, in any order, with gaps, and cut in a block. At the end stand the times of `dump hex` of 16 MiB and of objcopy on the same bytes.
#   bash tests/dump.sh [PROGRAM]        (from crates/flm_tool; PROGRAM is out/flm_tool unless it is given)
# It works in a folder of its own, and ends with status 0 where all is as wanted.
set -u
program=$(realpath "${1:-out/flm_tool}") || exit 1
data=$(realpath ../target_vectors/data) || exit 1
tests=$(realpath tests) || exit 1
folder=$(mktemp -d) || exit 1
trap 'rm -rf "$folder"' EXIT
cd "$folder" || exit 1
. "$tests/device.sh"
. "$tests/answers.sh"

# Counts a file that is the cells, or isn't: NAME FILE.
same_cells() {
    cmp -s "$2" cells
    same "$1" 0 $?
}

# A board whose region begins at an address: BASE SECTORS SIZE.
board_at() {
    board board.toml "$2" "$3"
    sed -i "s/^base = 0x08000000/base = $1/" board.toml
}

# A text that was put is the cells: NAME FILE FORM BASE, where objcopy and srec_cat call the form so.
read_by_others() {
    local name=$1 file=$2 form=$3 base=$4
    objcopy -I "$form" -O binary "$file" read && same_cells "$name, objcopy" read
    if [ "$form" = ihex ]; then form=intel; else form=motorola; fi
    srec_cat "$file" "-$form" -offset "-$base" -o read -binary && same_cells "$name, srec_cat" read
    "$program" job cells verify board.toml "$file" > out 2> err
    same "$name, verify" "0 same" "$? $(cat out)"
}

# A random device: BASE SECTORS SIZE.
device() {
    local name="$2 sectors of $3 from $1"
    board_at "$1" "$2" "$3"
    random_bytes $(($2 * $3)) > cells
    cp cells before
    "$program" job cells dump hex board.toml > text.hex 2> err
    same "dump hex of $name" "0 " "$? $(cat err)"
    "$program" job cells dump srec board.toml > text.srec 2> err
    same "dump srec of $name" "0 " "$? $(cat err)"
    read_by_others "dump hex of $name" text.hex ihex "$1"
    read_by_others "dump srec of $name" text.srec srec "$1"
    same_cells "the cells of $name" before
    [ ! -e job ]
    same "no job file of $name" 0 $?
}

# A number as four bytes, the least first.
word() {
    local shift
    for shift in 0 8 16 24; do
        printf "\\x$(printf %02x $(($1 >> shift & 255)))"
    done
}

# A block of UF2 with 256 bytes of the cells: PLACE NUMBER COUNT.
block() {
    word 0x0A324655 && word 0x9E5D5157 && word 0x2000 && word $((0x08000000 + $1)) && word 256 && word "$2" && word "$3" && word 0xE48BFF56
    dd status=none if=cells bs=256 skip=$(($1 / 256)) count=1
    head -c 220 /dev/zero && word 0x0AB16F30
}

# What `verify` says of a UF2 file, with the name image.uf2.
verified() {
    "$program" job cells verify board.toml image.uf2 > out 2> err
    echo "$? $(cat out err)"
}

# UF2 files of a device of 64 blocks.
blocks() {
    board_at 0x08000000 16 1024
    random_bytes 16384 > cells
    for at in $(seq 0 256 16128 | shuf); do block "$at" $((at / 256)) 64; done > image.uf2
    same "all blocks in any order" "0 same" "$(verified)"
    for at in $(seq 0 512 16128 | shuf); do block "$at" $((at / 512)) 32; done > image.uf2
    same "every other block" "0 same" "$(verified)"
    printf '\\x%02x' $((0x$(head -c 1 cells | od -An -tx1 | tr -d ' ') ^ 1)) > byte
    printf "$(cat byte)" > byte
    lay byte 0 cells
    same "a cell is another" "13 flmprog: differs at 08000000" "$(verified | cut -c1-31)"
    head -c 16000 image.uf2 > cut && mv cut image.uf2
    same "cut in a block" "4 flmprog: image image.uf2: Uf2 BadLength 16000" "$(verified)"
}

# How long 16 MiB take: processor time in user mode and in the system.
cost() {
    board_at 0x08000000 4096 4096
    random_bytes 16777216 > cells
    for _ in 1 2 3; do
        /usr/bin/time -f "dump hex of 16 MiB: %U s of user time, %S s of system time, %M KiB" "$program" job cells dump hex board.toml > text.hex
        /usr/bin/time -f "objcopy of 16 MiB: %U s of user time, %S s of system time, %M KiB" objcopy -I binary -O ihex cells other.hex
    done
}

device 0x08000000 4 256
device 0x08000000 64 1024
device 0x0800FF04 13 68
device 0x00000000 1 64
device 0xFFFF0000 256 256
device 0x0001FFFC 3 4
blocks
cost
echo "$right right, $wrong wrong"
[ $wrong = 0 ]
