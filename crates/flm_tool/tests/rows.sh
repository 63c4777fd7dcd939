# What the scripts on whole devices count, rows that are as wanted and rows that aren't, and what they ask of files. A script reads it in.

right=0
wrong=0

# Counts a row: NAME, and whether it is as wanted (0).
row() {
    if [ "$2" = 0 ]; then
        right=$((right + 1))
    else
        wrong=$((wrong + 1))
        echo "wrong: $1"
    fi
}

# Whether two files are the same: 0.
same() { cmp -s "$1" "$2"; echo $?; }

# Whether the job file is free: 0.
free() {
    [ ! -s job ] || [ "$(wc -c < job)" = 1 ] || [ "$(head -c 1 job | od -An -tx1 | tr -d ' ')" != a5 ]
    echo $?
}
