#!/bin/bash
# Begins jobs with the built flm_tool, and has flm_job show them and give their parts: of both formats, of one region and of two, by a reader that may
# not write, cut at ten lengths, with one bit changed at each of 16 bytes, locked, missing, and of 16 MiB. What is given is compared with what went in,
# and each refusal with that of `flm_tool status`. JOB is the same file before and after.
#   bash tests/jobs.sh [PROGRAM [TOOL]]        (from crates/flm_job; else out/flm_job and ../flm_tool/out/flm_tool)
# It wants as and ld of arm-none-eabi, python3, flock and /usr/bin/time. It works in a folder of its own, which it leaves where something is wrong,
# and ends with status 0 where all is as wanted.
set -u
program=$(realpath "${1:-out/flm_job}") || exit 1
tool=$(realpath "${2:-../flm_tool/out/flm_tool}") || exit 1
data=$(realpath ../target_vectors/data) || exit 1
tests=$(realpath ../flm_tool/tests) || exit 1
folder=$(mktemp -d) || exit 1
cd "$folder" || exit 1
. "$tests/device.sh"
. "$tests/answers.sh"

# What flm_job answers: its status, and what stands on standard output and standard error in the files answer and reason.
job() {
    "$program" "$@" > answer 2> reason
    echo $?
}

# A part that is a file: NAME FILE WORDS...
gives() {
    local name=$1 file=$2 status
    shift 2
    status=$(job "$@")
    cmp -s answer "$file"
    same "$name" "0 0 " "$status $? $(cat reason)"
}

# A refusal: NAME STATUS LINE WORDS... Nothing stands on standard output.
refuses() {
    local name=$1 wanted=$2 line=$3
    shift 3
    same "$name" "$wanted" "$(job "$@")" "$line" "$(cat reason)" '' "$(cat answer)"
}

# A text of a map is a file: NAME FILE FORM WORDS...
reads_back() {
    local name=$1 file=$2 form=$3
    shift 3
    same "$name, status" 0 "$(job "$@")"
    objcopy -I "$form" -O binary answer read && cmp -s read "$file"
    same "$name" 0 $?
}

# The hash of a file in capitals.
hash_of() { sha256sum "$1" | cut -d ' ' -f 1 | tr a-f A-F; }

# What is begun on a board of one region with these images: it gives back what went in.
one_region() {
    board board.toml 4 256 && algorithm algorithm.flm 4 256 64 || exit 1
    random_bytes 1024 > cells && random_bytes 100 > image && cp cells before
    "$tool" job cells begin --raw-at 0x08000080 board.toml algorithm.flm image > answer 2> reason
    same 'a job is begun' "0 begun" "$? $(cat answer)"
    cp job job_before
    gives 'the board' board.toml job board
    gives 'the FLM file' algorithm.flm job flm
    gives 'the FLM file by its number' algorithm.flm job flm 1
    gives 'the snapshot' before job snapshot raw
    reads_back 'the image as Intel HEX' image ihex job image hex
    reads_back 'the image as S-records' image srec job image srec
    "$tool" other cells plan board.toml algorithm.flm answer > plan_of_text 2> reason
    "$tool" other cells plan --raw-at 0x08000080 board.toml algorithm.flm image > plan_of_bytes 2> reason
    same 'a plan of the image' "$(cat plan_of_bytes)" "$(cat plan_of_text)"
    same 'the listing' 0 "$(job job)"
    "$tool" job cells status > status_text
    same 'it begins as status' "$(cat status_text)" "$(head -n "$(wc -l < status_text)" answer)"
    "$tool" job cells inspect algorithm.flm > inspection
    same 'it has the inspection' "$(cat inspection)" "$(sed -n '/^name /,/^entry Verify/p' answer | head -n "$(wc -l < inspection)")"
    for line in 'format 2' 'hash right' 'ram 20000000 8192 stack 512' 'region 08000000 1024 empty FF unit 2' 'sectors 4 of 256' \
        'first 08000080 last 080000E3' \
        "image sha256 $(hash_of image)" "snapshot sha256 $(hash_of before)"; do
        same "the listing's line $line" 0 "$(grep -qxF -- "$line" answer; echo $?)"
    done
    refuses 'no second region' 2 "$usage" job flm 2
}

# Words that fit nothing.
words() {
    for words in 'job none' 'job board 1' 'job flm 3' 'job flm 1 1' 'job image' 'job image raw' 'job image hex hex' 'job snapshot' 'job snapshot bin' \
        'job -h' 'none board board'; do
        # shellcheck disable=SC2086
        refuses "words '$words'" 2 "$usage" $words
    done
    refuses 'no name' 8 'flmprog: store fault'
}

# A job of the first format is a head without a hash and the rest of a job of one region.
first_format() {
    python3 - << 'END'
job = open("job", "rb").read()
board, files, first, second, runs, cells = (job[at:at + 4] for at in range(40, 64, 4))
open("first", "wb").write(job[:1] + b"FLMJOB1" + board + first + runs + cells + job[64:])
END
    same 'the first format by status' "$("$tool" job cells status)" "$("$tool" first cells status)"
    gives 'the first format: the board' board.toml first board
    gives 'the first format: the FLM file' algorithm.flm first flm
    gives 'the first format: the snapshot' before first snapshot raw
    reads_back 'the first format: the image' image ihex first image hex
    same 'the first format: the listing' 0 "$(job first)"
    same 'the first format: its lines' "$(printf 'format 1\nhash none')" "$(sed -n '/^format/,/^hash/p' answer)"
    refuses 'the first format: no second region' 2 "$usage" first flm 2
}

# What isn't a job is refused as by status, whatever is asked for.
refused_as_status() {
    local name=$1 file=$2 status line
    "$tool" "$file" cells status > answer 2> reason
    status=$?
    line=$(cat reason)
    if [ $status = 0 ]; then
        [ "$(cat answer)" = 'job none' ] || { same "$name" 'no job' "$(cat answer)"; return; }
        status=7
        line='flmprog: job: none'
    fi
    for part in '' board flm 'image hex' 'snapshot raw'; do
        # shellcheck disable=SC2086
        refuses "$name: '$part'" $status "$line" "$file" $part
    done
}

# A damaged job gives the parts of the job for which its file stands once its hash is put right, each with a line that nothing vouches for it.
gives_unvouched() {
    local name=$1 file=$2 line status
    line=$("$tool" "$file" cells status 2>&1)
    python3 - "$file" << 'END'
import hashlib, sys
job = open(sys.argv[1], "rb").read()
open("righted", "wb").write(job[:8] + hashlib.sha256(job[40:]).digest() + job[40:])
END
    refuses "$name: the listing" 7 "$line" "$file"
    for part in board flm 'flm 2' 'image hex' 'image srec' 'snapshot raw'; do
        # shellcheck disable=SC2086
        "$program" righted $part > wanted 2> reason
        # shellcheck disable=SC2086
        status=$(job "$file" $part)
        cmp -s answer wanted
        same "$name: '$part'" "7 0 $line"$'\n'"$warning" "$status $? $(cat reason)"
    done
}

# One bit is changed, at each of some bytes.
damaged() {
    local at value
    for at in 0 1 7 8 39 40 44 48 52 56 60 63 64 100 400 $(($(stat -c %s job) - 1)); do
        cp job changed
        value=$(od -An -tu1 -j "$at" -N 1 job)
        patch changed "$at" "$(printf %02X $((value ^ 1 << at % 8)))"
        case $("$tool" changed cells status 2>&1) in
            'flmprog: job: damaged'*) gives_unvouched "one bit of byte $at" changed ;;
            *) refused_as_status "one bit of byte $at" changed ;;
        esac
    done
}

cut_short() {
    local length
    for length in 0 1 2 8 40 63; do
        head -c "$length" job > cut
        refused_as_status "cut to $length" cut
    done
    for length in 64 65 200 $(($(stat -c %s job) - 1)); do
        head -c "$length" job > cut
        gives_unvouched "cut to $length" cut
    done
    { cat job; printf x; } > longer
    gives_unvouched 'a byte more' longer
    head -c 100 /dev/urandom | sed 's/^/\xA5/' > noise
    refused_as_status 'noise' noise
}

# Two regions, each with its own algorithm.
two_regions() {
    cat > two.toml << 'END'
[ram]
base = 0x20000000
size = 8192
[[region]]
base = 0x08000000
sectors = [[4, 256]]
[[region]]
base = 0x08100000
sectors = [[2, 128]]
[controller]
base = 0x40022000
END
    sed -e 's/0x08000000, 1024, PAGE, 0/0x08100000, 256, PAGE, 0/' -e 's/256, 0$/128, 0/' "$data/algorithms.s" > second.s &&
        arm-none-eabi-as --defsym KIND=1 --defsym PAGE=64 --defsym PROG=100 --defsym ERASE=500 -o second.o second.s &&
        arm-none-eabi-ld -n -T "$data/algorithms.ld" -o second.flm second.o || exit 1
    random_bytes 1280 > two_cells && cp two_cells two_before
    objcopy -I binary -O ihex --change-addresses 0x08000100 image image.hex || exit 1
    "$tool" two two_cells begin two.toml algorithm.flm second.flm image.hex > answer 2> reason
    same 'a job of two regions is begun' "0 begun " "$? $(cat answer) $(cat reason)"
    gives 'two regions: the board' two.toml two board
    gives 'two regions: the first FLM file' algorithm.flm two flm 1
    gives 'two regions: the second FLM file' second.flm two flm 2
    gives 'two regions: the snapshot' two_before two snapshot raw
    same 'two regions: the listing' 0 "$(job two)"
    same 'two regions: both algorithms' "$(printf 'device 08000000 1024\ndevice 08100000 256\n')" "$(grep '^device' answer | tail -n 2)"
}

# A reader that may not write, a lock, a missing file, what is no file, and a full output.
surroundings() {
    chmod 444 job
    if [ "$(id -u)" = 0 ]; then
        chmod 755 "$folder" && cp "$program" flm_job && chmod 755 flm_job
        same 'a reader' 0 "$(setpriv --reuid=65534 --regid=65534 --clear-groups ./flm_job job snapshot raw > answer 2> reason; echo $?)"
    else
        same 'a reader' 0 "$(job job snapshot raw)"
    fi
    cmp -s answer before
    same 'a reader: the snapshot' 0 $?
    chmod 644 job
    flock -x job "$program" job board > answer 2> reason
    same 'another program writes' '8 flmprog: store fault' "$? $(cat reason)"
    flock -s job "$program" job board > answer 2> reason
    same 'another program reads' '0 ' "$? $(cat reason)"
    refuses 'no file' 8 'flmprog: store fault' missing board
    same 'none is made' 1 "$(test -e missing; echo $?)"
    mkdir directory && refuses 'a folder' 8 'flmprog: store fault' directory
    mkfifo pipe && refuses 'a pipe' 8 'flmprog: store fault' pipe
    "$program" job snapshot raw > /dev/full 2> reason
    same 'a full output' '10 flmprog: output fault' "$? $(cat reason)"
    "$program" job >&- 2> reason
    same 'no output' '10 flmprog: output fault' "$? $(cat reason)"
    "$program" job board 2>&- > answer
    same 'no error output' 0 $?
    cmp -s job job_before
    same 'the job file is as it was' 0 $?
}

# 16 MiB of snapshot.
large() {
    board large.toml 4096 4096 && algorithm large.flm 4096 4096 1024 || exit 1
    random_bytes 16777216 > cells && cp cells before && random_bytes 1000 > image
    "$tool" large cells begin --raw-at 0x08000000 large.toml large.flm image > answer 2> reason
    same '16 MiB: begun' "0 begun" "$? $(cat answer)"
    for part in '' board 'snapshot raw'; do
        # shellcheck disable=SC2086
        /usr/bin/time -q -f '%e %M' -o time "$program" large $part > answer 2> reason
        same "16 MiB: '$part'" 0 $?
        read -r seconds kilobytes < time
        echo "16 MiB: '$part': $seconds s, $kilobytes KiB"
        same "16 MiB: '$part': at most 12 MiB" 1 "$((kilobytes <= 12288))"
    done
    cmp -s answer before
    same '16 MiB: the snapshot' 0 $?
    patch large 20 "$(printf %02X $((255 - $(od -An -tu1 -j 20 -N 1 large))))"
    /usr/bin/time -q -f '%M' -o time "$program" large snapshot raw > answer 2> reason
    same '16 MiB, damaged: the snapshot' "7 $warning" "$? $(tail -n 1 reason)"
    cmp -s answer before
    same '16 MiB, damaged: it is the old one' 0 $?
    same '16 MiB, damaged: at most 12 MiB' 1 "$(($(cat time) <= 12288))"
}

usage='flmprog: usage: flm_job JOB [board | flm [1|2] | image hex|srec | snapshot raw]'
warning="flmprog: job: its hash doesn't vouch for what is given"
one_region
words
first_format
damaged
cut_short
two_regions
surroundings
large
echo "$right right, $wrong wrong"
[ $wrong = 0 ] || { echo "$folder is left"; exit 1; }
cd / && rm -r "$folder"
