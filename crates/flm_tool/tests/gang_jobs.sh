# What the scripts on gangs share: a board, the algorithm at hand for it, and devices with a job that is begun on each. A script reads it in, in a
# folder of its own, with `program` set to the built program, `small` to the folder crates/program_vectors/data/host and `tests` to this one.
. "$tests/rows.sh"
. "$tests/bytes.sh"

# The digits of a number's four bytes, the lowest first.
word() { printf '%08X' "$1" | sed 's/\(..\)\(..\)\(..\)\(..\)/\4\3\2\1/'; }

# A board and the algorithm that keeps its duties on it: SECTORS SIZE PAGE. The algorithm at hand is for 4 sectors of 256 bytes with pages of 64; it
# has the size of the device at 364, that of a page at 368, and that of a sector at 388.
board_and_algorithm() {
    printf '[ram]\nbase = 0x20000000\nsize = 8192\n[[region]]\nbase = 0x08000000\nsectors = [[%d, %d]]\n[controller]\nbase = 0x40022000\n' \
        "$1" "$2" > board.toml
    cp "$small/a1.flm" a1.flm
    patch a1.flm 364 "$(word $(($1 * $2)))"
    patch a1.flm 368 "$(word "$3")"
    patch a1.flm 388 "$(word "$2")"
}

# Begins a job on a device of random bytes, with an image of random bytes at some place: NUMBER SIZE AT BYTES. The files are job.NUMBER and
# cells.NUMBER; begun.NUMBER is the job as it was begun, old.NUMBER and new.NUMBER what the device held and is to hold.
begin_job() {
    rm -f "job.$1"
    random_bytes "$2" > "cells.$1"
    random_bytes "$4" > "image.$1"
    cp "cells.$1" "old.$1"
    cp "cells.$1" "new.$1"
    lay "image.$1" "$3" "new.$1"
    "$program" "job.$1" "cells.$1" begin --raw-at "$(printf '0x%08X' $((0x08000000 + $3)))" board.toml a1.flm "image.$1" > out 2> err || return 1
    cp "job.$1" "begun.$1"
}

# Sets `words` to the pairs of the files of these numbers.
pairs() {
    local number
    words=()
    for number in "$@"; do
        words+=("job.$number" "cells.$number")
    done
}

# Whether a device's job file is the one that was begun, with its first byte made 0: NUMBER.
is_closed() {
    [ "$(head -c 1 "job.$1" | od -An -tx1 | tr -d ' ')" = 00 ] && cmp -s <(tail -c +2 "job.$1") <(tail -c +2 "begun.$1")
    echo $?
}

# A device that is done: NAME NUMBER.
finished() {
    row "$1: the cells of device $2" "$(same "cells.$2" "new.$2")"
    row "$1: the job of device $2 is closed" "$(is_closed "$2")"
}
