#!/bin/bash
# Draws plans with tools/plan_map: plans that the built program prints, plans by hand, a plan of a million lines, and inputs that are wrong. It
# compares the maps and the lines that say what is wrong, and looks at the pictures' boxes.
#   bash tests/plan_map.sh [PROGRAM]        (from crates/flm_tool; PROGRAM is out/flm_tool unless it is given)
# It works in a folder of its own, and ends with status 0 where all is as wanted.
set -u
program=$(realpath "${1:-out/flm_tool}") || exit 1
data=$(realpath ../session_vectors/data) || exit 1
tests=$(realpath tests) || exit 1
map=$(realpath ../../tools/plan_map) || exit 1
folder=$(mktemp -d) || exit 1
trap 'rm -rf "$folder"' EXIT
cd "$folder" || exit 1
. "$tests/answers.sh"

# What a map says, in one line: rows and counts without the heads of regions.
signs() { grep -v '^region' | tr '\n' '|'; }

# A map: NAME WANTED, and then the words of plan_map, which reads the plan from standard input.
map() {
    local name=$1 wanted=$2
    shift 2
    same "$name" "0 $wanted" "$("$map" "$@" > out 2> err; echo $?) $(signs < out)$(cat err)"
}

# A refusal: NAME WANTED, and then the words of plan_map.
refused() {
    local name=$1 wanted=$2
    shift 2
    same "$name" "1 plan_map: $wanted" "$("$map" "$@" > out 2> err; echo $?) $(cat err)$(cat out)"
}

# How many boxes of this look and height the picture has.
boxes() { grep -c "^<rect class=\"$1\".*height=\"$2\"/>" picture.svg; }

cp "$data/a1.flm" .
# A board: NAME REGIONS.
board() { printf 'ram = { base = 0x20000000, size = 4096 }\nregion = [%s]\ncontroller.base = 0x40022000\n' "$2" > "$1"; }

board board.toml '{ base = 0x08000000, sectors = [[4, 256]] }'
board two.toml '{ base = 0x08000000, sectors = [[2, 256]] }, { base = 0x1FFFF000, sectors = [[1, 256]] }'
head -c 1024 /dev/zero | tr '\000' '\377' > blank

# What the program plans: a blank device, old contents that are kept, and nothing to do.
printf 'firmware' > new.bin
"$program" job blank plan --raw-at 0x080000FC board.toml a1.flm new.bin > plan
map 'a blank device, across two sectors' '08000000 ++..|.  as it is: 2|+  programmed: 2|' board.toml plan
cp blank cells && printf 'old' | dd of=cells bs=1 seek=64 conv=notrunc status=none && printf 'old contents' | dd of=cells conv=notrunc status=none
"$program" job cells plan --raw-at 0x08000000 board.toml a1.flm new.bin > plan
map 'old contents, as the plan alone shows them' '08000000 #...|.  as it is: 3|#  erased and programmed: 1|' board.toml plan
map 'old contents that are kept' \
    '08000000 @...|.  as it is: 3|@  erased, kept bytes written back: 1|' --cells cells --image new.bin --raw-at 0x08000000 board.toml plan
head -c 256 /dev/zero | tr '\000' '1' > whole.bin
"$program" job cells plan --raw-at 0x08000000 board.toml a1.flm whole.bin > plan
map 'an image of the whole sector keeps nothing' \
    '08000000 #...|.  as it is: 3|#  erased and programmed: 1|' --cells cells --image whole.bin --raw-at 0x08000000 board.toml plan
head -c 256 blank > emptied.bin
"$program" job cells plan --raw-at 0x08000000 board.toml a1.flm emptied.bin > plan
map 'a sector that becomes empty' '08000000 -...|.  as it is: 3|-  erased and left empty: 1|' board.toml plan
"$program" job cells plan --raw-at 0x08000200 board.toml a1.flm emptied.bin > plan
map 'nothing to do' '08000000 ....|.  as it is: 4|' board.toml plan

# By hand: the chip, two regions, and what a command prints after its plan.
printf 'plan chip\nerase chip\nprogram 08000100 64\ncost 5\ndone\n' > plan
map 'the chip' '08000000 -#--|#  erased and programmed: 1|-  erased and left empty: 3|' board.toml plan
printf 'region 08000000\nplan chip\nerase chip\ncost 5\nregion 1FFFF000\nplan sectors\nprogram 1FFFF040 64\ncost 1\ndone\n' > plan
map 'two regions, whose chip is the first' '08000000 --|-  erased and left empty: 2|1FFFF000 +|+  programmed: 1|' two.toml plan
map 'the same with a picture' '08000000 --|-  erased and left empty: 2|1FFFF000 +|+  programmed: 1|' --svg picture.svg two.toml plan
same 'its boxes' '2 erased, 1 not, 1 page' \
    "$(boxes erased 26) erased, $(boxes box 26) not, $(boxes page 18) page"
same 'its heads' '08000000 256: erased and left empty|08000100 256: erased and left empty|1FFFF000 256: programmed|' \
    "$(sed -n 's:.*<title>\(.*\)</title>:\1:p' picture.svg | sort -u | tr '\n' '|')"

# Inputs that are wrong.
refused 'no board' 'none.toml: No such file or directory' none.toml plan
printf 'ram = { base = 0x20000000, size = 4096 }\n' > bad.toml
refused 'a board without a region' 'board bad.toml: Missing region' bad.toml plan
printf '' > empty
refused 'an empty plan' 'the plan is empty' board.toml empty
printf 'plan sectors\nprogram 08000000 64\n' > cut
refused 'a plan that was cut' "the plan ends after line 2, and a line 'cost' should follow" board.toml cut
printf 'plan sectors\nerase 08000400 256\ncost 1\n' > outside
refused 'a sector outside the device' \
    "line 2 of the plan, 'erase 08000400 256': it is outside the board's region, or a line before it has the same cells" board.toml outside
printf 'plan sectors\nprogram 08000000 64\nprogram 08000020 64\ncost 1\n' > twice
refused 'the same cells twice' \
    "line 3 of the plan, 'program 08000020 64': it is outside the board's region, or a line before it has the same cells" board.toml twice
printf 'demo 7\nsectors 8\n' > other
refused 'what is no plan' "line 1 of the plan, 'demo 7': no line of a plan stands so here" board.toml other
refused 'the plan of one region on a board of two' "line 1 of the plan, 'plan sectors': no line of a plan stands so here" two.toml twice
printf 'region 1FFFF000\nplan none\ncost 0\n' > order
refused 'regions in another order' "line 1 of the plan, 'region 1FFFF000': 'region 08000000' should stand here" two.toml order
refused 'cells without images' '--cells and --image go together: kept bytes are in the cells, and no image covers them' --cells cells board.toml plan
printf 'plan none\ncost 0\n' > none
refused 'cells of another device' 'new.bin has 8 bytes, and the board'"'"'s regions have 1024 cells' --cells new.bin --image new.bin board.toml none
refused 'an image of no form' 'image new.bin: NoForm' --cells cells --image new.bin board.toml none
same 'an output that is full' 1 "$("$map" board.toml none > /dev/full 2> err; echo $?)"

# A million lines: 16 MiB in sectors of 4 KiB, each second page of 8 bytes.
board large.toml '{ base = 0x08000000, sectors = [[4096, 4096]] }'
awk 'BEGIN { print "plan sectors"; for (k = 0; k < 1048576; k++) printf "program %08X 8\n", 134217728 + 16 * k; print "cost 10485760" }' > plan
begun=$(date +%s)
same 'a million lines' '+  programmed: 4096' "$("$map" large.toml plan | tail -n 1)"
echo "a million lines: $(($(date +%s) - begun)) s"

echo "$right right, $wrong wrong"
[ $wrong = 0 ]
