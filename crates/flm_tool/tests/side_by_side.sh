#!/bin/bash
# Runs the built program where others use the same files: two at once on one JOB and CELLS, some that look on all the while, a job that runs, files
# that another program has locked, JOB and CELLS as one file, cells that can't be written, and a terminal.
#   bash tests/side_by_side.sh [PROGRAM [TIMES]]        (from crates/flm_tool; else out/flm_tool, 40 pairs at once)
# It wants flock, script and setpriv (of Debian's util-linux and bsdutils), and works in a folder of its own. It ends with status 0 where
# all is as wanted.
set -u
program=$(realpath "${1:-out/flm_tool}") || exit 1
times=${2:-40}
data=$(realpath ../session_vectors/data) || exit 1
tests=$(realpath tests) || exit 1
folder=$(mktemp -d) || exit 1
trap 'rm -rf "$folder"' EXIT
cd "$folder" || exit 1
. "$tests/answers.sh"
cp "$data/small.toml" "$data/a1.flm" .

# A run, by a command that is to run it (as flock JOB): STATUS OUT ERR BY.. -- WORDS..
run() {
    local status=$1 out=$2 err=$3 by=()
    shift 3
    while [ "$1" != -- ]; do
        by+=("$1")
        shift
    done
    shift
    ${by[@]+"${by[@]}"} "$program" "$@" > out 2> err
    same "${by[*]-} $*" "$status" $? "$out" "$(cat out)" "$err" "$(cat err)"
}

# So many bytes of a value in octal digits.
filled() { head -c "$1" /dev/zero | tr '\0' "\\$2"; }

# The cells as a job of the image FILE at each PLACE leaves them, laid over those of `old`: NAME (FILE PLACE)..
laid() {
    local name=$1
    shift
    cp old "$name"
    while [ $# -ge 2 ]; do
        dd status=none if="$1" of="$name" bs=1 seek="$2" conv=notrunc
        shift 2
    done
}

# Two jobs at once: each that ends with 0 has its image in the cells, and one that doesn't has changed nothing.
filled 300 021 > first
filled 300 042 > second
busy=0
for turn in $(seq "$times"); do
    rm -f job
    head -c 1024 /dev/urandom > old
    cp old cells
    "$program" job cells program --raw-at 0x08000010 small.toml a1.flm first > out.1 2> err.1 &
    one=$!
    sleep "0.00$((turn % 10))"
    "$program" job cells program --raw-at 0x08000200 small.toml a1.flm second > out.2 2> err.2
    two_status=$?
    wait $one
    one_status=$?
    images=()
    [ $one_status = 0 ] && images+=(first 16)
    [ $two_status = 0 ] && images+=(second 512)
    laid expected ${images[@]+"${images[@]}"}
    for status in $one_status $two_status; do
        [ "$status" = 0 ] || busy=$((busy + 1))
        same "turn $turn, the status $status" yes "$(case $status in 0 | 8 | 9) echo yes ;; esac)"
    done
    same "turn $turn, statuses $one_status $two_status: the cells" 0 "$(cmp -s cells expected; echo $?)"
    same "turn $turn: the job" 'job none' "$("$program" job cells status)"
done
echo "$busy of $((2 * times)) were refused"

# Others that look on all the while: `status`, `verify` and `dump`, each in turn every tenth of a second. None of them fails, and no job.
poll() {
    local words
    while [ ! -e over ]; do
        for words in status 'verify --raw-at 0x08000010 small.toml first' 'dump hex small.toml'; do
            "$program" job cells $words > polled.out 2> polled.err
            echo "$? ${words%% *}" >> polled
        done
        sleep 0.1
    done
}
rm -f job
head -c 1024 /dev/urandom > cells
poll &
poller=$!
failed=0
for turn in $(seq 50); do
    for image in first second; do
        "$program" job cells program --raw-at 0x08000010 small.toml a1.flm $image > out 2> err || failed=$((failed + 1))
    done
done
: > over
wait $poller
same 'jobs beside a poll' 0 $failed yes "$([ "$(wc -l < polled)" -ge 6 ] && echo yes)"
same 'a poll beside jobs' '' "$(grep -vx -e '0 .*' -e '13 verify' polled)"

# A job that runs, here one whose output nobody takes for some seconds: a program beside it fails within two seconds, and changes nothing.
rm -f job
cp old cells
{
    head -c 65536 /dev/zero
    "$program" job cells program --raw-at 0x08000010 small.toml a1.flm first 2> err.1
    echo $? > status.1
} | { sleep 6; cat > out.1; } &
running=$!
until [ -s job ]; do sleep 0.01; done
sleep 0.2
for words in 'program --raw-at 0x08000200 small.toml a1.flm second' resume revert status; do
    start=$(date +%s%N)
    run 8 '' 'flmprog: store fault' -- job cells $words
    took=$((($(date +%s%N) - start) / 1000000))
    same "$words beside a job that runs: $took ms" yes "$([ $took -lt 2000 ] && echo yes)"
done
same 'a job that runs: the cells' 0 "$(cmp -s cells old; echo $?)"
wait $running
laid expected first 16
same 'a job that ran' 0 "$(cat status.1)" 0 "$(cmp -s cells expected; echo $?)" 'job none' "$("$program" job cells status)"

# Files that another program has locked: nothing is written where it only reads, and nothing is read where it writes.
head -c 1024 /dev/urandom > old
cp old cells
cp old image
rm -f job && : > job
run 8 '' 'flmprog: store fault' flock -x job -- job cells status
run 8 '' 'flmprog: store fault' flock -s job -- job cells program --raw-at 0x08000000 small.toml a1.flm first
run 0 'job none' '' flock -s job -- job cells status
run 9 '' 'flmprog: device fault' flock -x cells -- job cells compare image
run 0 same '' flock -s cells -- job cells compare image
flock -s cells "$program" job cells program --raw-at 0x08000000 small.toml a1.flm first > out 2> err
status=$?
# Nothing is changed: the job isn't begun either.
same 'program, cells that another program reads' 8 "$status" 'flmprog: store fault' "$(cat err)"
same 'locked files: the cells' 0 "$(cmp -s cells old; echo $?)"
same 'locked files: the job' 'job none' "$("$program" job cells status)"

# JOB and CELLS are one file, by the same name, a hard link or a symbolic one: nothing is changed.
ln cells hard
ln -s cells soft
for name in cells hard soft ./cells; do
    run 8 '' 'flmprog: store fault' -- "$name" cells program --raw-at 0x08000000 small.toml a1.flm first
    run 8 '' 'flmprog: store fault' -- "$name" cells status
    same "$name as JOB: the cells" 0 "$(cmp -s cells old; echo $?)"
done
run 8 '' 'flmprog: store fault' -- cells soft status
rm hard soft

# Cells that can't be written are read, and a write fails.
nobody=()
if [ "$(id -u)" = 0 ]; then
    nobody=(setpriv --reuid 65534 --regid 65534 --clear-groups)
    chmod 777 . && : > out && : > err
fi
chmod 444 cells
rm -f job
run 0 same '' ${nobody[@]+"${nobody[@]}"} -- job cells compare image
run 13 '' "flmprog: differs at 00000000 wanted 11 found $(head -c 1 cells | od -An -tx1 | tr -d ' ' | tr a-f A-F)" \
    ${nobody[@]+"${nobody[@]}"} -- job cells compare first
${nobody[@]+"${nobody[@]}"} "$program" job cells plan --raw-at 0x08000000 small.toml a1.flm first > out 2> err
same 'a plan for cells that cannot be written' 0 $? 'plan sectors' "$(head -n 1 out)" '' "$(cat err)"
${nobody[@]+"${nobody[@]}"} "$program" job cells program --raw-at 0x08000000 small.toml a1.flm first > out 2> err
same 'a job on cells that cannot be written' 9 $? 'flmprog: device fault' "$(cat err)" 0 "$(cmp -s cells old; echo $?)"
chmod 644 cells
rm -f job

# A terminal as standard error shows how far a job is, on one line; a file or a pipe gets nothing of it, and standard output never.
cp old cells
"$program" job cells program --raw-at 0x08000000 small.toml a1.flm first > plain 2> err
same 'a job with no terminal' 0 $? '' "$(cat err)" done "$(tail -n 1 plain)"
cp old cells
rm -f job
script -qec "'$program' job cells program --raw-at 0x08000000 small.toml a1.flm first > out" shown > /dev/null
same 'a job with a terminal' 0 $? 0 "$(cmp -s out plain; echo $?)" yes "$(grep -q $'\r\e\[K' shown && echo yes)"
"$program" job cells compare first 2>&1 | cat > out
same 'a pipe as standard error' same "$(cat out)"

echo "$right right, $wrong wrong"
[ "$wrong" = 0 ]
