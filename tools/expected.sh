#!/bin/bash
# Says whether what the models of this folder write is what the test crates have stored.
#   bash tools/expected.sh        (from anywhere; it wants python3 from 3.11 on)
set -u
cd "$(dirname "${BASH_SOURCE[0]}")/.." || exit 1
folder=$(mktemp -d) || exit 1
trap 'rm -rf "$folder"' EXIT
right=0
wrong=0
export PYTHONDONTWRITEBYTECODE=1

# Compares what a model wrote with what is stored: NAME WRITTEN STORED.
compare() {
    if cmp -s "$2" "$3"; then
        right=$((right + 1))
    else
        wrong=$((wrong + 1))
        echo "differs: $1"
        diff -a "$3" "$2" | head -5
    fi
}

# The lines of a file behind one line and before another, or to its end: FILE BEHIND [BEFORE].
between() { awk -v behind="$2" -v before="${3-}" '$0 == behind { on = 1; next } before != "" && $0 == before { on = 0 } on' "$1"; }

python3 tools/job_files.py write "$folder/jobs" || exit 1
for file in "$folder"/jobs/*/*; do
    crate=$(basename "$(dirname "$file")")
    compare "$crate/data/$(basename "$file")" "$file" "crates/$crate/data/$(basename "$file")"
done
stored=crates/session_vectors/stdout
for list in changes.txt two.txt; do
    compare "the hashes of $list" <(python3 tools/job_files.py hashes $list) crates/session_vectors/data/$list
done
compare 'jobs of the first format' <(python3 tools/job_files.py first) <(between $stored 'a job of the first format' 'a job of the second format')
compare 'jobs of the second format' <(python3 tools/job_files.py second) <(between $stored 'a job of the second format' 'a job of two regions')
compare 'jobs of two regions' <(python3 tools/job_files.py two) <(between $stored 'a job of two regions' 'a blank device')
compare 'jobs that are begun and opened' <(python3 tools/job_files.py stops) <(sed '/^a job of the first format$/,$d' $stored)
first=$(head -n 1 crates/program_vectors/data/sweeps.txt)
row=$(sed -n 's/^row //p' crates/program_vectors/data/rows.txt | head -n 1)
compare 'the sweeps' <(python3 tools/sweeps.py) <(echo "$first"; between crates/program_vectors/stdout "$first" "$row")
if python3 tools/answers.py check; then right=$((right + 1)); else wrong=$((wrong + 1)); fi
echo "$right right, $wrong wrong"
[ $wrong = 0 ]
