#!/bin/bash
# Runs the examples of the documents as they are written, and compares what they print, on both streams.
#   bash tests/examples.sh [DOCUMENT...]        (from crates/flm_tool, with out/flm_tool built; else README.md and docs/USE.md)
# An example stands between a line ```console and a line ```. In it a line that begins with `$ ` is a command, one that begins with `> `
# right behind that goes on with it, and what follows up to the next command is what it prints. The commands of a document run in one
# shell, from the first to the last, that begins in crates/flm_tool.
set -u
documents=("$@")
[ $# -gt 0 ] || documents=(../../README.md ../../docs/USE.md)
folder=$(mktemp -d) || exit 1
trap 'rm -rf "$folder"' EXIT
export TMPDIR=$folder

# Takes the commands of a document, and what each is to print, into files: command.N and wanted.N from 1 on.
take() {
    awk -v folder="$2" '
        $0 == "```console" { inside = 1; next }
        $0 == "```" { inside = 0; next }
        !inside { next }
        /^\$ / { count += 1; began = 1; printf "" > (folder "/wanted." count); print substr($0, 3) > (folder "/command." count); next }
        /^> / && began { print substr($0, 3) > (folder "/command." count); next }
        { began = 0; print > (folder "/wanted." count) }
    ' "$1"
}

# Runs the commands that were taken into this folder, and says how each that prints something else does.
run() {
    local number=0 right=0 wrong=0
    while [ -e "$1/command.$((number + 1))" ]; do
        number=$((number + 1))
        eval "$(cat "$1/command.$number")" > "$1/found" 2>&1 < /dev/null
        if cmp -s "$1/found" "$1/wanted.$number"; then
            right=$((right + 1))
        else
            wrong=$((wrong + 1))
            echo "$ $(cat "$1/command.$number")"
            diff "$1/wanted.$number" "$1/found" | head -20
        fi
    done
    echo "$right right, $wrong wrong"
    [ $right -gt 0 ] && [ $wrong = 0 ]
}

failed=0
for document in "${documents[@]}"; do
    echo "$document"
    taken=$(mktemp -d) && take "$document" "$taken" || exit 1
    (set +u; run "$taken") || failed=1
done
exit $failed
