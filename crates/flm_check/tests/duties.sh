#!/bin/bash
# Tries algorithms that keep their duties and ones that each break one, with the built program, and compares the first line of each answer and its
# status: A1 to A7 and F1, the algorithms in C for both controllers, one of Debian's python3-pyocd, and those that are made of the C source by one
# change. Then what is told of a breach, the words, the refusals, closed streams and a terminal's line, and what it costs.
#   bash tests/duties.sh [PROGRAM]        (from crates/flm_check; else out/flm_check)
# It wants as, ld, gcc and objcopy of arm-none-eabi, python3, `script` and /usr/bin/time; without the compiler what it makes is left out. It works in a
# folder of its own, which it leaves where something is wrong, and ends with status 0 where all is as wanted.
set -u
program=$(realpath "${1:-out/flm_check}") || exit 1
data=$(realpath ../target_vectors/data) || exit 1
forged=$(realpath ../target_vectors/stdout) || exit 1
tests=$(realpath ../flm_tool/tests) || exit 1
folder=$(mktemp -d) || exit 1
cd "$folder" || exit 1
. "$tests/device.sh"
. "$tests/answers.sh"

# The answer of words: NAME FIRST STATUS WORDS... Behind `tried` any numbers may stand.
answers() {
    local name=$1 wanted=$2 wanted_status=$3 status first
    shift 3
    "$program" "$@" > answer 2> reason
    status=$?
    first=$(head -n 1 answer)
    case $first in 'tried '*' lists '*' calls') first=tried ;; esac
    same "$name" "$wanted" "$first" "$wanted_status" "$status" '' "$(cat reason)"
}

# A refusal of words: STATUS LINE WORDS... Nothing stands on standard output.
refuses() {
    local wanted_status=$1 line=$2 status
    shift 2
    "$program" "$@" > answer 2> reason
    status=$?
    same "refusal of '$*'" "$wanted_status" "$status" "$line" "$(cat reason)" '' "$(cat answer)"
}

# An FLM file that was forged: NAME FILE, by the name that stands over its bytes.
forged() {
    awk -v name="$1" '$0 == name { p = 1; next } p && /^[0-9A-F]+$/ { print; q = 1; next } q { exit }' "$forged" | xxd -r -p > "$2"
}

# The algorithm in C with one change: NAME OLD NEW, as NAME.flm. The old text stands once in the source.
changed() {
    local count
    count=$(grep -cF -- "$2" "$data/flash.c")
    [ "$count" = 1 ] || { echo "$1: the text stands $count times"; exit 1; }
    OLD=$2 NEW=$3 perl -pe 's/\Q$ENV{OLD}\E/$ENV{NEW}/' "$data/flash.c" > "$1.c"
    arm-none-eabi-gcc -mcpu=cortex-m0 -mthumb -Os -ffreestanding -fpic -msingle-pic-base -mpic-register=r9 \
        -mno-pic-data-is-text-relative -c -o "$1.o" "$1.c" &&
        arm-none-eabi-ld -n -T "$data/flash.ld" -o "$1.elf" "$1.o" &&
        arm-none-eabi-objcopy --rename-section PrgZero=PrgData "$1.elf" "$1.flm" || exit 1
}

# One that breaks a duty: NAME DUTY OLD NEW.
breaks() {
    changed made "$3" "$4"
    answers "$1" "broken $2" 15 small.toml made.flm
    cp answer "$1.answer"
}

# The assembled and the forged ones.
assembled() {
    local kind
    cp "$data"/a?.flm "$data/flash.flm" .
    forged F1 f1.flm
    answers A1 proved 0 small.toml a1.flm
    answers A2 'broken cell-inside' 15 small.toml a2.flm
    answers A3 'broken no-fuel' 15 small.toml a3.flm
    answers A4 'broken operation-outside' 15 small.toml a4.flm
    answers A5 'broken operation-outside' 15 small.toml a5.flm
    answers A6 'broken answer' 15 small.toml a6.flm
    answers A7 'broken fault' 15 small.toml a7.flm
    answers F1 tried 0 fpec_small.toml f1.flm
    answers 'in C' tried 0 small.toml flash.flm
    answers 'in C, three rounds' tried 0 small.toml flash.flm --rounds 3 --seed 99
    answers 'A1 where another kind of controller is' 'broken cell-inside' 15 fpec_small.toml a1.flm
    answers 'A1 where a sector is longer' 'broken operation-outside' 15 longer.toml a1.flm
}

# Two regions, of which the second has an algorithm that was forged for it.
two_regions() {
    cp "$data/two.toml" two.toml
    forged 'A1 second' second.flm
    forged 'A2 second' idle.flm
    answers 'two regions' tried 0 two.toml first.flm second.flm
    answers 'a second region whose algorithm does nothing' 'broken cell-inside' 15 two.toml first.flm idle.flm
}

# Those in C.
compiled() {
    compiled_algorithm many.flm 64 1024 256 && fpec_algorithm fpec.flm 64 1024 256 || exit 1
    answers 'in C, 64 sectors' tried 0 many.toml many.flm
    answers 'in C, for FPEC' tried 0 fpec.toml fpec.flm
    breaks 'a page one unit short' cell-inside 'place = 0; place < size; place += 2' 'place = 0; place + 2 < size; place += 2'
    breaks 'the next sector too' operation-outside 'return erase(2, address);' 'return erase(2, address) | erase(2, address ^ 256);'
    breaks 'success before the end' operation-open 'return wait() != 0;' 'return 0;'
    breaks 'a chip without its last sector' cell-inside 'return erase(3, 0);' \
        'return erase(2, 0x08000000) | erase(2, 0x08000100) | erase(2, 0x08000200);'
    breaks 'a page of zeros refused' answer 'block->command = 1;' \
        'block->command = 1; for (place = 0; place < size && !bytes[place]; place += 1); if (place == size) return 1;'
    breaks 'a verification that erases' operation-outside 'return address + place;' \
        'block->command = 2; block->address = address; block->start = 1; wait(); return address + place;'
    breaks 'an Init that leaves an operation open' operation-outside 'return ended != 0;' \
        'block->command = 2; block->address = address; block->start = 1; return 0;'
    breaks 'a time-out too long' no-fuel 'return erase(2, address);' \
        'for (u32 volatile left = 1000000; left; left -= 1); return erase(2, address);'
    breaks 'a page skipped by its first byte' cell-inside 'if (kind != 2)' 'if (*bytes == 0xFF) return 0; if (kind != 2)'
    breaks 'a page skipped by its last byte' cell-inside 'if (kind != 2)' 'if (bytes[size - 1] == 0xFF) return 0; if (kind != 2)'
    breaks 'an UnInit that refuses' answer 'return what_for != kind;' 'return what_for == 3;'
    breaks 'an odd page refused' answer 'block->command = 1;' 'if (address & 64) return 1; block->command = 1;'
    changed rare 'return erase(2, address);' 'if (*(u8 *)address == 0xFF && address & 256) return 0; return erase(2, address);'
    answers 'an odd sector skipped by its first byte, in one round' tried 0 small.toml rare.flm
    answers 'the same in a hundred' 'broken cell-inside' 15 small.toml rare.flm --rounds 100
    breaks 'a fault behind the work' fault 'return what_for != kind;' '*(u32 volatile *)0x50000000 = 0; return what_for != kind;'
}

# What is told of a breach.
told() {
    "$program" small.toml a5.flm > answer
    same 'the text of a breach' "$(sed 's/^\(EraseSector calls 1 steps\) [0-9]*/\1/' answer)" 'broken operation-outside
Init calls 1 steps 7 of 500000 percent 1
EraseSector calls 1 steps of 500000 percent 1
list device 08000000 contents blank bytes empty seed 627405149472732430
call Init 1
call EraseSector 08000000
operation at cell 256 of 256 cells'
    "$program" small.toml a5.flm > again
    same 'the same again' '' "$(cmp answer again 2>&1)"
    "$program" small.toml a5.flm --seed 1 --rounds 1 > again
    same 'the numbers that stand where none are given' '' "$(cmp answer again 2>&1)"
    "$program" small.toml a5.flm --seed 2 > again
    same 'another seed' 1 "$(cmp -s answer again; echo $?)"
    "$program" small.toml a2.flm > answer
    same 'a cell' 'cell 0 wanted FF found 00' "$(tail -n 1 answer)"
    "$program" small.toml a3.flm > answer
    same 'a time-out' 'end no fuel at 20000' "$(tail -n 1 answer | cut -c 1-20)"
    same 'all of a time-out' 'percent 100' "$(grep -o 'percent 100' answer)"
    "$program" small.toml a6.flm > answer
    same 'a value' 'end answered 00000001' "$(tail -n 1 answer)"
}

# Words and files that are refused.
refused() {
    local usage='flmprog: usage: flm_check BOARD FLM [FLM] [--seed N] [--rounds N]'
    refuses 2 "$usage"
    refuses 2 "$usage" small.toml
    refuses 2 "$usage" small.toml a1.flm --seed
    refuses 2 "$usage" small.toml a1.flm --rounds 0
    refuses 2 "$usage" small.toml a1.flm --rounds 00 --seed 1
    refuses 2 "$usage" small.toml a1.flm --seed x
    refuses 2 "$usage" small.toml a1.flm --seed -1
    refuses 2 "$usage" small.toml a1.flm --seed +1
    refuses 2 "$usage" small.toml a1.flm --seed ''
    refuses 2 "$usage" small.toml a1.flm --seed 4294967296
    refuses 2 "$usage" small.toml a1.flm --seed 1 --seed 2
    refuses 2 "$usage" small.toml a1.flm --none 1
    refuses 2 "$usage" --seed 1 small.toml a1.flm
    refuses 2 "$usage" small.toml a1.flm a1.flm a1.flm
    refuses 2 "$usage" small.toml a1.flm a1.flm
    refuses 2 "$usage" two.toml first.flm
    refuses 2 "$usage" small.toml $'a\377.flm'
    refuses 3 'flmprog: cannot read none' small.toml none
    refuses 3 'flmprog: cannot read none' none a1.flm
    refuses 5 'flmprog: flm: Elf NotElf' small.toml small.toml
    refuses 5 'flmprog: flm: other device 08000000 1024' many.toml a1.flm
    refuses 6 'flmprog: board: NotToml' a1.flm a1.flm
    sed 's/^size = .*/size = 256/' small.toml > tight.toml
    "$program" tight.toml a1.flm > answer 2> reason
    same 'no room' 5 $? 'flmprog: flm: NoRoom' "$(cut -c 1-20 reason)"
    (cat small.toml; head -c 1048577 /dev/zero | tr '\0' '#') > long.toml
    refuses 1 'flmprog: out of memory' long.toml a1.flm
    # what the other program says of the same files
    if [ -x "$(dirname "$program")/../../flm_tool/out/flm_tool" ]; then
        head -c 1024 /dev/zero > cells
        printf 'x' > image
        for words in 'small.toml small.toml' 'many.toml a1.flm' 'a1.flm a1.flm' 'tight.toml a1.flm' 'small.toml none'; do
            # shellcheck disable=SC2086
            "$program" $words > answer 2> reason
            # shellcheck disable=SC2086
            "$(dirname "$program")/../../flm_tool/out/flm_tool" job cells plan --raw-at 0x08000000 $words image > answer 2> other
            same "plan refuses '$words' so too" "$(cat other)" "$(cat reason)"
        done
    fi
}

# Streams that are closed or full.
streams() {
    "$program" small.toml a1.flm > /dev/full 2> reason
    same 'a full output' 10 $? 'flmprog: output fault' "$(cat reason)"
    "$program" small.toml a1.flm >&- 2> reason
    same 'no output' 10 $? 'flmprog: output fault' "$(cat reason)"
    "$program" small.toml a1.flm 2>&- > answer
    same 'no error output' 0 $? proved "$(head -n 1 answer)"
    "$program" small.toml none 2> /dev/full > answer
    same 'a full error output' 3 $? '' "$(cat answer)"
    "$program" small.toml a1.flm < /dev/null > answer 2> reason
    same 'no input' 0 $?
    "$program" <(cat small.toml) <(cat a1.flm) > answer 2> reason
    same 'files from a pipe' 0 $? proved "$(head -n 1 answer)"
}

# The line on a terminal.
terminal() {
    "$program" small.toml flash.flm --rounds 40 > out 2> err
    same 'a pipe: no line' '' "$(cat err)"
    script -qec "$program small.toml flash.flm --rounds 40 > out_there" seen > shown < /dev/null
    same 'a terminal: standard output as on a pipe' '' "$(cmp out out_there 2>&1)"
    same 'a terminal: a line' 0 "$(grep -aq '[0-9]* lists tried, [0-9]* calls' shown; echo $?)"
    same 'a terminal: wiped at the end' "$(printf '\r\033[K')" "$(tail -c 4 shown)"
    script -qec "$program small.toml flash.flm --rounds 40" seen > shown < /dev/null
    same 'one terminal: the texts as on a pipe' '' "$(tr -d '\r' < shown | sed 's/.*\x1b\[K//' | grep -v ' lists tried, ' | cmp - out 2>&1)"
}

# The algorithm of another project, where it is installed.
shipped() {
    local target=/usr/lib/python3/dist-packages/pyocd/target/target_STM32F051T8.py size=65536 sector=1024 page=1024
    [ -e $target ] || { echo "left out: python3-pyocd isn't installed"; return; }
    printf 'ram = { base = 0x20000000, size = 16384 }\nregion = [{ base = 0x08000000, sectors = [[64, 1024]] }]\n' > vendor.toml
    printf 'controller = { base = 0x40022000, kind = "fpec" }\nquiet = [{ base = 0x40003000, size = 12 }]\n' >> vendor.toml
    python3 -B "$tests/vendors.py" pyocd $target pyocd && python3 -B "$tests/vendors.py" armlink pyocd 1 $size $page $sector pyocd.flm || exit 1
    answers "pyOCD's for the STM32F051" tried 0 vendor.toml pyocd.flm
    echo "pyOCD's for the STM32F051: $(sed -n 's/.*percent //p' answer | sort -n | tail -n 1) percent of a time-out at the most"
    sed -n 2,9p answer
}

# Time and memory.
cost() {
    [ -x /usr/bin/time ] || { echo "left out: no /usr/bin/time"; return; }
    algorithm many_a1.flm 64 1024 256 || return
    /usr/bin/time -q -f '%e %M' -o time "$program" many.toml many_a1.flm > answer 2> reason
    same '64 sectors of 1,024 bytes: status' 0 $?
    read -r seconds kilobytes < time
    echo "64 sectors of 1,024 bytes: $seconds s, $kilobytes KiB"
    same '64 sectors of 1,024 bytes: at most 2 s' 1 "$(awk -v t="$seconds" 'BEGIN { print t <= 2 }')"
    board large.toml 4096 4096 && algorithm large.flm 4096 4096 1024 || return
    /usr/bin/time -q -f '%e %M' -o time "$program" large.toml large.flm > answer 2> reason
    same '16 MiB: status' 0 $?
    read -r seconds kilobytes < time
    echo "16 MiB: $seconds s, $kilobytes KiB"
    same '16 MiB: at most 64 MiB' 1 "$((kilobytes <= 65536))"
}

board small.toml 4 256
board many.toml 64 1024
board longer.toml 2 512
fpec_board fpec_small.toml 4 256
fpec_board fpec.toml 64 1024
assembled
forged A1 first.flm
two_regions
told
refused
streams
terminal
shipped
if command -v arm-none-eabi-gcc > /dev/null; then
    compiled
    cost
else
    echo "left out: no compiler for Arm"
fi
echo "$right right, $wrong wrong"
[ $wrong = 0 ] || { echo "$folder is left"; exit 1; }
cd / && rm -r "$folder"
