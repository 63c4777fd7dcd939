# What the scripts do with the bytes of files. A script reads it in.

# So many random bytes.
random_bytes() { head -c "$1" /dev/urandom; }

# Lays the bytes of one file over those of another from a place on: OVER AT INTO.
lay() { dd status=none if="$1" of="$3" bs=65536 seek="$2" oflag=seek_bytes conv=notrunc; }

# Puts bytes, given as pairs of digits, into a FILE from an OFFSET on.
patch() {
    # shellcheck disable=SC2059
    printf "$(echo "$3" | sed 's/../\\x&/g')" | dd status=none of="$1" bs=1 seek="$2" conv=notrunc
}
