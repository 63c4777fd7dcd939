# What the scripts on answers count: those that are as wanted, and those that aren't. A script reads it in.

right=0
wrong=0

# Compares what was wanted and found: NAME (WANTED FOUND)..
same() {
    local name=$1
    shift
    while [ $# -ge 2 ]; do
        if [ "$1" != "$2" ]; then
            echo "$name: wanted '$1', found '$2'"
            wrong=$((wrong + 1))
            return
        fi
        shift 2
    done
    right=$((right + 1))
}
