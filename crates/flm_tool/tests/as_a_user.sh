#!/bin/bash
# Runs the built program as a user does, and compares its status and what it writes on both streams.
#   bash tests/as_a_user.sh [PROGRAM]        (from crates/flm_tool; PROGRAM is out/flm_tool unless it is given)
# It works in a folder of its own, and ends with status 0 where all is as wanted.
set -u
program=$(realpath "${1:-out/flm_tool}") || exit 1
data=$(realpath ../program_vectors/data) || exit 1
tests=$(realpath tests) || exit 1
folder=$(mktemp -d) || exit 1
trap 'rm -rf "$folder"' EXIT
cd "$folder" || exit 1
. "$tests/answers.sh"

# A run of the program: the wanted status, standard output and standard error, and then its words.
run() {
    local status=$1 out=$2 err=$3
    shift 3
    "$program" "$@" > out 2> err
    same "$*" "$status" $? "$out" "$(cat out)" "$err" "$(cat err)"
}

printf '\1\2\377\377' > cells
cp cells before
printf '\1\2' > same
printf '\1\2\63' > other
printf '12345' > long
printf '' > empty
printf '\377' > ff
cat > board.toml <<'BOARD'
[ram]
base = 0x20000000
size = 4096
[[region]]
base = 0x08000000
sectors = [[1, 4]]
[controller]
base = 0x40022000
BOARD
printf ':020000040800F2\n:020000000102FB\n:00000001FF\n' > right.hex
printf ':020000040800F2\n:020000000103FA\n:00000001FF\n' > wrong.hex
cp "$data/small.toml" "$data/small.flm" "$data/moved.flm" .
head -c 1024 /dev/zero | tr '\0' '\377' > blank

usage='flmprog: usage: flm_tool JOB CELLS COMMAND [WORDS]'

# Each status that the commands have without a fault of the system, with both streams.
run 0 same '' job cells compare same
run 0 same '' job cells compare empty
run 0 same '' job cells verify board.toml right.hex
run 0 same '' job cells verify --raw-at 0x08000000 board.toml same
run 0 $':020000040800F2\n:040000000102FFFFFB\n:00000001FF' '' job cells dump hex board.toml
run 0 $'S0030000FC\nS309080000000102FFFFED\nS70500000000FA' '' job cells dump srec board.toml
run 0 $'plan sectors\nprogram 08000000 64\ncost 1' '' job blank plan small.toml small.flm right.hex
run 0 $'plan none\ncost 0' '' job blank plan small.toml small.flm --raw-at 0x080003FF -- ff
run 2 '' "$usage"
run 2 '' "$usage" job cells
run 2 '' "$usage" job cells compare
run 2 '' "$usage" job cells compare same other
run 2 '' "$usage" job cells compare --no-such same
run 2 '' "$usage" job cells dump bin board.toml
run 3 '' 'flmprog: cannot read missing' job cells compare missing
run 3 '' 'flmprog: cannot read .' job cells compare .
run 4 '' 'flmprog: image: 5 bytes for 4 cells' job cells compare long
run 4 '' 'flmprog: image: 2 bytes for 0 cells' job missing compare same
run 5 '' 'flmprog: flm: other device 08000400 1024' job blank plan small.toml moved.flm right.hex
run 7 '' 'flmprog: job: 1024 cells wanted, 4 found' job cells plan small.toml small.flm right.hex
run 13 '' 'flmprog: differs at 00000002 wanted 33 found FF' job cells compare other
run 13 '' 'flmprog: differs at 08000001 wanted 03 found 02' job cells verify board.toml wrong.hex

# The demonstration, which needs neither file and prints the same each time.
demo=$'demo 7\nsectors 8\npages 20\ncost 1000\nstopped 27698\nresumed 0\nsame'
run 0 "$demo" '' job cells demo 7
run 0 "$demo" '' job missing demo 7
run 0 "$demo" '' job cells demo -- 007
run 2 '' "$usage" job cells demo
run 2 '' "$usage" job cells demo 4294967296
run 2 '' "$usage" job cells demo -1
run 2 '' "$usage" job cells demo 7 7

# The job file: one that is missing is made, and is empty then.
run 0 'job none' '' new_job cells status
same 'a job file that was made' 0 "$(($(wc -c < new_job)))"
run 7 '' 'flmprog: job: none' new_job cells resume
run 7 '' 'flmprog: job: none' new_job cells revert
printf '\245\0' > no_job
run 7 '' 'flmprog: job: not a job at 2' no_job cells status
run 7 '' 'flmprog: job: not a job at 2' no_job blank program small.toml small.flm right.hex
run 7 '' 'flmprog: job: not a job at 2' no_job blank begin small.toml small.flm right.hex
run 7 '' 'flmprog: job: 1024 cells wanted, 4 found' new_job cells begin small.toml small.flm right.hex
run 2 '' "$usage" new_job cells resume x
run 2 '' "$usage" new_job cells program
run 2 '' "$usage" new_job cells begin
run 2 '' "$usage" new_job cells begin small.toml small.flm
run 2 '' "$usage" job cells verify --raw-at 0x08000000 --raw-at 0 b a
run 2 '' "$usage" job cells plan --raw-at 0x123456789 b f i
run 3 '' 'flmprog: cannot read missing' job cells program missing small.flm right.hex
run 3 '' 'flmprog: cannot read missing' job cells begin missing small.flm right.hex

# A job that is begun, and no more. No call of the algorithm is made: one that erases another sector than it is told (A5) spoils none. The job
# is the one that `program` begins, and `resume` and `revert` go on with it.
jobs=$(realpath "$data/../../session_vectors/data") || exit 1
cp "$jobs/a1.flm" "$jobs/a5.flm" .
cp "$jobs/small.toml" sectors.toml
head -c 1024 /dev/urandom > held
cp held wanted
printf '\1\2' | dd status=none of=wanted conv=notrunc
for flm in a5.flm a1.flm; do
    rm -f begun
    cp held device
    run 0 begun '' begun device begin sectors.toml "$flm" right.hex
    same "begin with $flm: the cells" 0 "$(cmp -s held device; echo $?)"
    run 7 '' 'flmprog: job: open' begun device begin sectors.toml "$flm" right.hex
    run 7 '' 'flmprog: job: open' begun device program sectors.toml "$flm" right.hex
done
run 0 $'job open\ndevice 08000000 1024\nimage 2 bytes in 1 runs' '' begun device status
cp held other_device
"$program" closed other_device program sectors.toml a1.flm right.hex > out 2> err
same 'the job that program begins' 0 $? 0 "$(cmp -s <(tail -c +2 closed) <(tail -c +2 begun); echo $?)"
cp begun first_begun
"$program" begun device resume > out 2> err
same 'begin and resume' 0 $? 'done' "$(tail -n 1 out)" 0 "$(cmp -s wanted device; echo $?)"
cp first_begun begun
printf 'garbage' | dd status=none of=device conv=notrunc
"$program" begun device revert > out 2> err
same 'begin and revert' 0 $? 'done' "$(tail -n 1 out)" 0 "$(cmp -s held device; echo $?)"
rm -f begun
"$program" begun device begin sectors.toml a1.flm right.hex > /dev/full 2> err
same 'a full output of a beginning' 10 $? 'flmprog: output fault' "$(cat err)" 0 "$(cmp -s held device; echo $?)"
same 'the job of a beginning with a full output' 0 "$(cmp -s begun first_begun; echo $?)"

# A board's text of 1 MiB is parsed, and no longer one.
(cat board.toml; head -c 1048576 /dev/zero | tr '\0' '#') > long.toml
head -c 1048576 long.toml > full.toml
run 0 same '' job cells verify full.toml right.hex
run 1 '' 'flmprog: out of memory' job cells verify long.toml right.hex

# One firmware in each form, against a device that holds it, one that differs in its last byte, and a blank one. GCC 12.2 for Arm
# compiled it for a Cortex-M0 with -Os -nostdlib -Wl,-n, linked at 0x08000000; arm-none-eabi-objcopy --strip-all made the ELF file,
# and -O ihex, -O srec and -O binary the others of it.
blank() { head -c "$1" /dev/zero | tr '\0' '\377'; }
(cat "$data/firmware.bin"; blank 28) > holds
(head -c 35 "$data/firmware.bin"; printf I; blank 28) > differs
blank 64 > unused
for image in "$data/firmware.elf" "$data/firmware.hex" "$data/firmware.s19" "--raw-at=0x08000000 $data/firmware.bin"; do
    words="$data/one_sector.toml $image"
    [ "${image#--}" = "$image" ] || words="${image%% *} $data/one_sector.toml ${image#* }"
    run 0 same '' job holds verify $words
    run 13 '' 'flmprog: differs at 08000023 wanted 48 found 49' job differs verify $words
    run 13 '' 'flmprog: differs at 08000000 wanted 00 found FF' job unused verify $words
done
run 4 '' "flmprog: image $data/firmware.bin: NoForm" job holds verify "$data/one_sector.toml" "$data/firmware.bin"

# Words that aren't UTF-8 fit no command.
run 2 '' "$usage" job cells compare $'\377'
run 2 '' "$usage" $'\377' cells compare same
run 2 '' "$usage" job $'\377' compare same
run 2 '' "$usage" job cells $'\377' same
run 2 '' "$usage" job cells status $'\377'
run 2 '' "$usage" job cells demo $'\377'
run 2 '' "$usage" $'\377' cells demo 7

# A stream that is closed: nothing is printed into a file, and what can't be printed on standard output is status 10.
for words in 'compare same' 'verify board.toml right.hex'; do
    "$program" job cells $words > out 2> err <&-
    same "$words, no input" 0 $? same "$(cat out)" '' "$(cat err)"
    "$program" job cells $words 2> err >&-
    same "$words, no output" 10 $? 'flmprog: output fault' "$(cat err)"
    "$program" job cells $words > out 2>&-
    same "$words, no error" 0 $? same "$(cat out)"
    "$program" job cells $words <&- >&- 2>&-
    same "$words, no stream" 10 $?
done
"$program" job cells compare other 2> err >&-
same 'differs, no output' 13 $? 'flmprog: differs at 00000002 wanted 33 found FF' "$(cat err)"
"$program" job cells compare other > out 2>&-
same 'differs, no error' 13 $? '' "$(cat out)"
"$program" job cells compare other <&- >&- 2>&-
same 'differs, no stream' 13 $?
"$program" job cells compare same > /dev/full 2> err
same 'a full output' 10 $? 'flmprog: output fault' "$(cat err)"
"$program" job blank plan small.toml small.flm right.hex > /dev/full 2> err
same 'a full output of a plan' 10 $? 'flmprog: output fault' "$(cat err)"
"$program" job cells demo 7 > /dev/full 2> err
same 'a full output of a demonstration' 10 $? 'flmprog: output fault' "$(cat err)"

# An input of more than one reading, from a pipe too.
head -c 9000 /dev/zero | tr '\0' '\7' > many
cp many many_cells
run 0 same '' job many_cells compare many
out=$(cat many | "$program" job many_cells compare /dev/stdin)
same 'from a pipe' 0 $? same "$out"

# Cells at both sides of a window of those that were read ahead, and the last one.
for at in 4095 4096 8999; do
    cp many other_cells
    printf '\11' | dd status=none of=other_cells bs=1 seek=$at conv=notrunc
    run 13 '' "$(printf 'flmprog: differs at %08X wanted 07 found 09' $at)" job other_cells compare many
done
head -c 8999 many > short_cells
run 4 '' 'flmprog: image: 9000 bytes for 8999 cells' job short_cells compare many

same 'the cells' 0 "$(cmp -s cells before; echo $?)" 0 "$(cmp -s many_cells many; echo $?)"
same 'no job file is made' no "$([ -e job ] && echo yes || echo no)"
echo "$right right, $wrong wrong"
[ "$wrong" = 0 ]
