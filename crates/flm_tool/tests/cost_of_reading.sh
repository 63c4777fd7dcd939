#!/bin/bash
# Measures what reading costs, and prints the tables of docs/MEASURED.md: `compare` of 16 MiB beside cmp, by turns, and `plan` of 65,536 sectors,
# which may take 42 MiB; then `verify` of 16 MiB in each form, of which Intel HEX and S-records may take as long as objcopy, by turns, and 80 MB; and
# inputs that were made to be dear, none of which may take more than 1 GiB or 30 s.
#   bash tests/cost_of_reading.sh [PROGRAM [OLD]]        (from crates/flm_tool; else out/flm_tool; OLD is measured beside it, by turns)
# It ends with status 1 where a figure is past its limit.
set -u
program=$(realpath "${1:-out/flm_tool}") || exit 1
old=${2:+$(realpath "$2")}
data=$(realpath ../session_vectors/data) || exit 1
tests=$(realpath tests) || exit 1
folder=$(mktemp -d) || exit 1
trap 'rm -rf "$folder"' EXIT
cd "$folder" || exit 1
. "$tests/device.sh"
past=0

# The seconds (user, system, wall) and KiB of a command into the file `time`; it answers the command's status.
timed() { /usr/bin/time -q -f '%U %S %e %M' -o time "$@" > out 2> err; }

# The least user and system time of five samples of so many runs each, of some programs by turns, for one run: NAME RUNS PROGRAM.. -- WORDS..
# `first` and `last` are the milliseconds of the first and of the last program.
least() {
    local name=$1 runs=$2 programs=() least=() at seconds TIMEFORMAT='%U %S'
    shift 2
    while [ "$1" != -- ]; do
        programs+=("$1")
        shift
    done
    shift
    for _ in 1 2 3 4 5; do
        for at in "${!programs[@]}"; do
            seconds=$({ time for ((run = 0; run < runs; run++)); do "${programs[at]}" "$@" > out 2> err; done; } 2>&1)
            least[at]=$(echo "$seconds" | awk -v runs="$runs" -v least="${least[at]:-999999}" \
                '{ t = ($1 + $2) * 1000 / runs; print (t < least) ? t : least }')
        done
    done
    for at in "${!programs[@]}"; do
        awk -v name="$name, ${programs[at]##*/}" -v t="${least[at]}" 'BEGIN { printf "| %s | %.1f ms |\n", name, t }'
    done
    first=${least[0]} last=${least[-1]}
}

today=$(date '+%-d %B %Y')
echo "| The least of five samples, $today | User and system |"
echo '|---|---|'

random_bytes 16777216 > cells
cp cells image
cmp_of_both() { cmp cells image; }
least '`compare` of 16 MiB' 20 "$program" ${old:+"$old"} cmp_of_both -- job cells compare image

# The file of the algorithm A1, for 65,536 sectors of 256 bytes with pages of 16: device size, page size and size of a sector in place of theirs.
cp "$data/a1.flm" a1.flm
at=$(LC_ALL=C grep -obUaP '\x00\x00\x00\x08\x00\x04\x00\x00\x40\x00\x00\x00' a1.flm | cut -d: -f1)
printf '\0\0\0\1\20\0\0\0' | dd status=none of=a1.flm bs=1 seek=$((at + 4)) conv=notrunc
board board.toml 65536 256
random_bytes 16777216 > image
least '`plan` of 65,536 sectors, all used' 1 "$program" ${old:+"$old"} -- job cells plan --raw-at 0x08000000 board.toml a1.flm image
echo

# Its memory is that of the image as taken and as read, 16 MiB each, and of the plan, with four bytes for a page: no list of cells is held.
for one in "$program" ${old:+"$old"}; do
    /usr/bin/time -q -f %M -o time "$one" job cells plan --raw-at 0x08000000 board.toml a1.flm image > out 2> err
    most=$(cat time)
    echo "plan of 65,536 sectors: $((most / 1024)) MiB, ${one##*/}"
    [ "$one" != "$program" ] || [ "$most" -le 43008 ] || past=$((past + 1))
done

# So many MiB of a text over and over: MIB TEXT.
over() { yes "$2" | tr -d '\n' | head -c $(($1 * 1048576)); }

# A command on an input, and a row of what it costs: NAME STATUS WORDS..
dear() {
    local name=$1 status=$2
    shift 2
    timed "$program" job cells "$@"
    local found=$?
    read -r _ _ wall most < time
    awk -v name="$name" '{ printf "| %s | %.2f s | %.2f s | %.2f s | %.0f MB |\n", name, $1, $2, $3, $4 * 1024 / 1e6 }' time
    if [ $found != "$status" ] || [ "$most" -gt 1048576 ] || [ "${wall%.*}" -ge 30 ]; then
        echo "$name: past the limit, or not status $status: $(head -c 200 err)"
        past=$((past + 1))
    fi
}

# Intel HEX, and S-records, with so many records of one byte, each at an address of its
# own, of which every second is left out.
hex_of_bytes() {
    awk -v count="$1" 'BEGIN {
        for (n = 0; n < count; n++) {
            if (n % 32768 == 0) {
                upper = 2048 + n / 32768
                printf ":02000004%04X%02X\n", upper, (1018 - int(upper / 256) - upper % 256) % 256
            }
            at = (n % 32768) * 2
            printf ":01%04X0001%02X\n", at, (766 - int(at / 256) - at % 256) % 256
        }
        print ":00000001FF"
    }'
}
srec_of_bytes() {
    awk -v count="$1" 'BEGIN {
        for (n = 0; n < count; n++) {
            at = 134217728 + n * 2
            printf "S306%08X01%02X\n", at, (1008 - int(at / 65536) % 256 - int(at / 256) % 256 - at % 256) % 256
        }
        print "S70500000000FA"
    }'
}

# An ELF file of so many segments of one byte in the same way.
elf_of_bytes() {
    awk -v count="$1" 'BEGIN {
        printf "7f454c46010101000000000000000000" "02002800" "01000000" "00000000" "34000000" "00000000" "00000005"
        printf "3400" "2000" "%02x%02x" "2800" "0000" "0000\n", count % 256, int(count / 256)
        for (n = 0; n < count; n++) {
            at = n * 2
            printf "01000000" "00000000" "00000000" "%02x%02x%02x08" "01000000" "01000000" "04000000" "01000000\n",
                at % 256, int(at / 256) % 256, int(at / 65536)
        }
    }' | xxd -r -p
}

echo "| \`plan\` and \`verify\` of 16 MiB, $today | User | System | Wall | Memory |"
echo '|---|---|---|---|---|'
dear '`plan` of 65,536 sectors, all used' 0 plan --raw-at 0x08000000 board.toml a1.flm image
cp image cells
board board.toml 4096 4096
dear 'raw bytes' 0 verify --raw-at 0x08000000 board.toml image
"$program" job cells dump hex board.toml > input && dear "Intel HEX, $(($(wc -c < input) >> 20)) MiB of text" 0 verify board.toml input
"$program" job cells dump srec board.toml > input && dear "S-records, $(($(wc -c < input) >> 20)) MiB of text" 0 verify board.toml input
(grep -v '^S7' input | shuf; echo S70500000000FA) > shuffled && dear 'the same, shuffled' 0 verify board.toml shuffled
awk 'NR % 2 == 0 || /^S7/' input > apart && dear "every second of these records" 0 verify board.toml apart
(grep -v '^S7' apart | shuf; echo S70500000000FA) > shuffled && dear 'the same, shuffled' 0 verify board.toml shuffled
echo

# The text `input` of 16 MiB beside objcopy: NAME FORM.
beside_objcopy() {
    local form=$2
    objcopy_of_both() { objcopy -I "$form" -O binary input binary; }
    least "\`verify\` of 16 MiB of $1" 2 "$program" ${old:+"$old"} objcopy_of_both -- job cells verify board.toml input
    timed "$program" job cells verify board.toml input
    if awk -v first="$first" -v last="$last" '{ exit first <= last && $4 * 1024 <= 80e6 }' time; then
        echo "$1: longer than objcopy, or more than 80 MB"
        past=$((past + 1))
    fi
}

echo "| Beside objcopy, the least of five samples, $today | User and system |"
echo '|---|---|'
"$program" job cells dump hex board.toml > input && beside_objcopy 'Intel HEX' ihex
"$program" job cells dump srec board.toml > input && beside_objcopy 'S-records' srec
echo

echo "| Input that is dear, $today | User | System | Wall | Memory |"
echo '|---|---|---|---|---|'
printf '\1' > one
over 64 '[1,1],' > input && dear 'a board of 64 MiB of `[1,1],`' 1 verify input one
(awk 'BEGIN { for (n = 0; n < 6500000; n++) print "k" n "=1" }' | head -c 67108864) > input && dear 'a board of 64 MiB of `kN=1`' 1 verify input one
(printf 'a = ['; over 1 '[1,1],' | head -c 1048560; printf ']') > input && dear 'a board with an array of 1 MiB' 6 verify input one
(awk 'BEGIN { for (n = 0; n < 110000; n++) print "k" n "=1" }' | head -c 1048575) > input && dear 'a board of 1 MiB of `kN=1`' 6 verify input one
board board.toml 65536 256
hex_of_bytes 4700000 > input && dear 'Intel HEX of 4,700,000 bytes apart' 13 verify board.toml input
srec_of_bytes 3900000 > input && dear 'S-records of 3,900,000 bytes apart' 13 verify board.toml input
elf_of_bytes 65000 > input && dear 'ELF of 65,000 segments of a byte' 13 verify board.toml input
(elf_of_bytes 65000; head -c 64000000 /dev/zero) > input && dear 'an FLM file of 64 MB with no sections' 5 inspect input
yes ':00000001FF' | head -c 67108864 > input && dear 'Intel HEX of 64 MiB of end records' 4 verify board.toml input
head -c 67108864 /dev/zero | tr '\0' ':' > input && dear 'Intel HEX of 64 MiB of colons' 4 verify board.toml input
head -c 67108864 /dev/zero | tr '\0' 'S' > input && dear 'S-records of 64 MiB of the letter S' 4 verify board.toml input
[ $past = 0 ]
