#!/bin/bash
# The sign of life: where standard error is a terminal, a line there counts the cells that were erased and programmed so far, of how many, and how
# many in a hundred that is. It is rewritten at most ten times a second, and wiped before anything else is put and at the end; a program that is
# interrupted leaves it, with the terminal on a new line. Where standard error is no terminal, nothing of it is put. It wants `script` of the package
# bsdutils for the terminal.
#   bash tests/on_a_terminal.sh [PROGRAM]        (from crates/flm_tool; else out/flm_tool)
set -u
program=$(realpath "${1:-out/flm_tool}") || exit 1
data=$(realpath ../target_vectors/data) || exit 1
tests=$(realpath tests) || exit 1
folder=$(mktemp -d) || exit 1
trap 'rm -rf "$folder"' EXIT
cd "$folder" || exit 1
. "$tests/device.sh"
wrong=0
clear=$(printf '\r\033[K')
whole='[0-9]* of [0-9]* cells erased, [0-9]* of [0-9]* programmed, [0-9]*%'

# Says a row is wrong where it is: NAME STATUS.
row() { [ "$2" = 0 ] || { wrong=$((wrong + 1)); echo "wrong: $1"; }; }

# New cells and a new image.
begin() {
    rm -f job
    random_bytes 1048576 > cells
    random_bytes 1048576 > image
}

# What the lines of a file count, each with the cells erased, of how many, the cells programmed, of how many, and the hundredths.
counts() { grep -ao "$whole" "$1" | tr -d % | cut -d ' ' -f 1,3,6,8,10; }

# Whether such lines count a device of 1 MiB that is erased in sectors of 1,024 cells, and then programmed two cells at a time.
counts_rise() {
    awk '$1 < erased || $3 < programmed || $1 % 1024 || $3 % 2 || $3 && $1 != 1048576 || $3 > 1048576 { wrong = 1 }
        $2 != 1048576 || $4 != 1048576 || $5 != int(($1 + $3) * 100 / ($2 + $4)) { wrong = 1 }
        { erased = $1; programmed = $3 }
        END { exit wrong || erased != 1048576 || !programmed }'
}

# Sectors are erased one by one, for the chip costs more.
board board.toml 1024 1024 && algorithm a1.flm 1024 1024 1024 || exit 1
printf '[weights]\nchip = 1000000\n' >> board.toml
words=(program --raw-at 0x08000000 board.toml a1.flm image)

begin
"$program" job cells "${words[@]}" > out 2> err
row 'a pipe: status' $?
row 'a pipe: the cells' "$(cmp -s cells image; echo $?)"
row 'a pipe: nothing on standard error' "$([ ! -s err ]; echo $?)"
grep -q $'\033' out err
row 'a pipe: no line' "$([ $? = 1 ]; echo $?)"

begin
start=$(date +%s%N)
script -qec "$program job cells ${words[*]} > out_there" seen > shown < /dev/null
row 'a terminal: status' $?
tenths=$((($(date +%s%N) - start) / 100000000))
row 'a terminal: the cells' "$(cmp -s cells image; echo $?)"
row 'a terminal: standard output as on a pipe' "$(cmp -s out out_there; echo $?)"
lines=$(grep -ao "$whole" shown | wc -l)
row 'a terminal: a line' "$([ "$lines" -gt 0 ]; echo $?)"
row "a terminal: at most ten a second ($lines in $tenths tenths)" "$([ "$lines" -le $((tenths + 2)) ]; echo $?)"
row 'a terminal: the counts' "$(counts shown | counts_rise; echo $?)"
row 'a terminal: wiped at the end' "$([ "$(tail -c 4 shown)" = "$clear" ]; echo $?)"

# Standard output and error on one terminal: each text stands behind a wiped line.
begin
script -qec "$program job cells ${words[*]}" seen > shown < /dev/null
row 'one terminal: status' $?
tr -d '\r' < shown | sed 's/.*\x1b\[K//' | grep -vx "$whole" > texts
row 'one terminal: the texts as on a pipe' "$(cmp -s out texts; echo $?)"

# An interrupt leaves the line as it was, and the terminal on a new line after it.
begin
rm -f shown
{
    until grep -aqs "$whole" shown; do sleep 0.02; done
    kill -INT "$(cat pid)"
} &
script -qfec "echo \$\$ > pid; exec $program job cells ${words[*]} > out_there" seen > shown < /dev/null
wait
row 'an interrupt: the last line is whole' "$(tail -n 1 shown | tr -d '\r' | sed 's/.*\x1b\[K//' | grep -qx "$whole"; echo $?)"
row 'an interrupt: a new line' "$([ -z "$(tail -c 1 shown)" ]; echo $?)"

[ $wrong = 0 ] && echo 'all as wanted'
[ $wrong = 0 ]
