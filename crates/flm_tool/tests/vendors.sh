#!/bin/bash
# Makes FLM files of flash algorithms that other tools ship, taken out of the files of Debian's python3-pyocd, openocd and libstlink-dev, and of
# one in C with the register accesses of the files in packs; and runs the built program with each, over a device of 64 KiB. Then it makes each thing
# go wrong that docs/USE.md names of a vendor's file, and does what is written there.
#   bash tests/vendors.sh [PROGRAM [KILLS]]        (from crates/flm_tool; else out/flm_tool and 50 kills with each file)
# It wants python3 and as, ld, gcc, objcopy and objdump of arm-none-eabi; what else isn't installed is left out, with a line that says so. It works
# in a folder of its own, which it leaves where something is wrong, and ends with status 0 where all is as wanted.
set -u
program=$(realpath "${1:-out/flm_tool}") || exit 1
kills=${2:-50}
tests=$(realpath tests) || exit 1
folder=$(mktemp -d) || exit 1
cd "$folder" || exit 1
. "$tests/rows.sh"
. "$tests/bytes.sh"
. "$tests/kills.sh"
base=0x08000000
size=65536
sector=1024
page=1024
targets=/usr/lib/python3/dist-packages/pyocd/target
loaders=/usr/share/doc/openocd/loaders/flash/stm32
archive=/usr/lib/x86_64-linux-gnu/libstlink.a

vendors() { python3 -B "$tests/vendors.py" "$@"; }
hexadecimal() { printf '0x%08X' $((base + $1)); }

# A board with FPEC and quiet registers of the watchdog: NAME SECTORS SIZE.
fpec_board() {
    {
        printf 'ram = { base = 0x20000000, size = 16384 }\nregion = [{ base = 0x08000000, sectors = [[%d, %d]] }]\n' "$2" "$3"
        printf 'controller = { base = 0x40022000, kind = "fpec" }\nquiet = [{ base = 0x40003000, size = 12 }]\n'
    } > "$1"
}

# ---- algorithms

# Links what an assembler or a compiler made into an algorithm: NAME OBJECT.
take_linked() {
    arm-none-eabi-ld -n -T "$tests/data/vendor.ld" -o "$1.elf" "$2" && arm-none-eabi-objcopy --rename-section PrgZero=PrgData "$1.elf" "$1.linked" &&
        vendors linked "$1.linked" "$1"
}

# An algorithm round a loader that stands in a folder of this name: NAME KIND.
take_loader() {
    arm-none-eabi-as -I "$1.loader" --defsym KIND="$2" -o "$1.o" "$tests/data/loader.s" && take_linked "$1" "$1.o"
}

# The algorithm in C, with what is defined for it: NAME DEFINITION..
take_compiled() {
    local name=$1
    shift
    arm-none-eabi-gcc -mcpu=cortex-m0 -mthumb -Os -ffreestanding -DBASE="$base" -DSIZE="$size" -DPAGE="$page" -DSECTOR="$sector" "$@" -c -o "$name.o" \
        "$tests/data/vendor.c" && take_linked "$name" "$name.o"
}

# Takes the algorithms that are installed, and names them in `algorithms`.
take_algorithms() {
    algorithms=()
    if [ -e $targets/target_STM32F051T8.py ]; then
        vendors pyocd $targets/target_STM32F051T8.py pyocd || exit 1
        algorithms+=(pyocd)
    else
        echo "left out: python3-pyocd isn't installed"
    fi
    if [ -e $loaders/stm32f1x.inc ]; then
        mkdir openocd.loader && vendors bytes $loaders/stm32f1x.inc openocd.loader/loader.bin && take_loader openocd 1 || exit 1
        algorithms+=(openocd)
    else
        echo "left out: openocd isn't installed"
    fi
    if [ -e $archive ]; then
        ar p $archive flash_loader.c.o > stlink.object && mkdir stlink.loader || exit 1
        vendors object stlink.object loader_code_stm32f0 stlink.loader/loader.bin && take_loader stlink 2 || exit 1
        algorithms+=(stlink)
    else
        echo "left out: libstlink-dev isn't installed"
    fi
    take_compiled compiled || exit 1
    algorithms+=(compiled)
}

# The FLM file of an algorithm: NAME LAYOUT BIT OUT.
make_flm() {
    if [ "$2" = armlink ]; then
        vendors armlink "$1" "$3" $size $page $sector "$4"
        return
    fi
    vendors text "$1" "$3" $size $page $sector > "$1.text.s" && arm-none-eabi-as -o "$1.text.o" "$1.text.s" &&
        arm-none-eabi-ld -n -T "$1.ld" -o "$1.text.elf" "$1.text.o" && arm-none-eabi-objcopy --rename-section PrgZero=PrgData "$1.text.elf" "$4"
}

# ---- whole jobs

# Cells of a kind, an image of so many bytes at a place, and what they come to: KIND AT BYTES.
made() {
    rm -f job
    head -c "$size" /dev/zero | tr '\0' '\377' > cells
    case $1 in
        used) random_bytes "$size" > cells ;;
        half)
            random_bytes $((size / 2)) | lay /dev/stdin 0 cells
            random_bytes 3 | lay /dev/stdin $((size - 5000)) cells
            ;;
    esac
    random_bytes "$3" > image
    cp cells old
    cp cells new
    lay image "$2" new
    words=(--raw-at "$(hexadecimal "$2")" board.toml algorithm.flm image)
}

# A job for the kills.
begin() { made used $((RANDOM % 8192)) $((RANDOM % 40000 + 1)); }

# A command that is done: NAME FILE, where FILE has what the cells are to be.
is_done() {
    row "$1: done is the last line" "$([ "$(tail -n 1 out)" = "done" ]; echo $?)"
    row "$1: nothing on standard error" "$([ ! -s err ]; echo $?)"
    row "$1: the cells" "$(same cells "$2")"
    row "$1: the job is closed" "$(free)"
}

# plan, program and verify over cells of a kind: ALGORITHM KIND AT BYTES.
programs() {
    local name="$it, $2 cells"
    made "$2" "$3" "$4"
    vendors plan "$1" old new $page $sector > wanted
    "$program" job cells plan "${words[@]}" > out 2> err
    row "$name: plan" $?
    row "$name: the plan" "$(same out wanted)"
    "$program" job cells program "${words[@]}" > out 2> err
    row "$name: program" $?
    row "$name: what it prints" "$(same out <(cat wanted; echo 'done'))"
    is_done "$name: program" new
    "$program" job cells verify "${words[@]:0:3}" image > out 2> err
    row "$name: verify" $?
    row "$name: verify prints" "$([ "$(cat out)" = same ]; echo $?)"
    "$program" job cells program "${words[@]}" > out 2> err
    row "$name: the same again" "$([ "$(cat out)" = $'plan none\ncost 0\ndone' ]; echo $?)"
}

# A job that is begun and resumed, and one that is begun, spoiled and reverted.
begins() {
    for command in resume revert; do
        made half 700 30000
        "$program" job cells begin "${words[@]}" > out 2> err
        row "$it: begin" $?
        row "$it: begin leaves the cells" "$(same cells old)"
        if [ $command = revert ]; then random_bytes 20000 | lay /dev/stdin 9000 cells; fi
        "$program" job cells $command > out 2> err
        row "$it: $command" $?
        is_done "$it: $command" "$(goal_of $command)"
    done
}

# Four devices at once.
gang_of_four() {
    local number pairs=()
    for number in 1 2 3 4; do
        made used $((number * 1001)) $((number * 7000))
        "$program" job cells begin "${words[@]}" > out 2> err
        row "$it: begin of target $number" $?
        mv job job.$number
        mv cells cells.$number
        mv new new.$number
        pairs+=("job.$number" "cells.$number")
    done
    "$program" --gang "${pairs[@]}" > out 2> err
    row "$it: the gang" $?
    row "$it: its lines" "$([ "$(cat out)" = $'target 1 done\ntarget 2 done\ntarget 3 done\ntarget 4 done' ]; echo $?)"
    for number in 1 2 3 4; do
        row "$it: the cells of target $number" "$(same cells.$number new.$number)"
    done
}

# A job that its output stopped is taken back.
reverts() {
    made used 3 50000
    "$program" job cells program "${words[@]}" > /dev/full 2> err
    row "$it: stopped" "$([ $? = 10 ]; echo $?)"
    "$program" job cells revert > out 2> err
    row "$it: revert" $?
    is_done "$it: revert" old
}

# How long a run takes, in microseconds.
time_a_run() {
    local from
    made used 4660 40000
    from=${EPOCHREALTIME/./}
    "$program" job cells program "${words[@]}" > out 2> err
    row "$it: the run that is timed" $?
    span=$((${EPOCHREALTIME/./} - from))
}

# All of it with one FLM file: ALGORITHM LAYOUT BIT.
run_with() {
    it="$1 by $2, bit $3"
    make_flm "$1" "$2" "$3" algorithm.flm || exit 1
    "$program" job cells inspect algorithm.flm > out 2> err
    row "$it: inspect" $?
    row "$it: what inspect prints" "$(same out <(vendors inspect "$1" $size $page $sector))"
    programs "$1" blank 0 20000
    programs "$1" blank 65535 1
    programs "$1" used 12345 30001
    programs "$1" used 40 3
    programs "$1" half 1000 60000
    programs "$1" half 40000 5000
    begins
    gang_of_four
    reverts
    time_a_run
    carry_jobs "$kills"
}

# An algorithm for another controller or another core: it ends with status 11, no cell changes, and the job is taken back: NAME FILE.
foreign() {
    it="$1 of pyOCD"
    vendors pyocd "$2" foreign && make_flm foreign armlink 1 algorithm.flm || exit 1
    for kind in blank used; do
        made $kind 5000 3000
        "$program" job cells program "${words[@]}" > out 2> err
        row "$it, $kind cells: the status" "$([ $? = 11 ]; echo $?)"
        row "$it, $kind cells: the line" "$(grep -q '^flmprog: call [0-9]* [A-Za-z]*: ' err; echo $?)"
        row "$it, $kind cells: the cells" "$(same cells old)"
        "$program" job cells revert > out 2> err
        row "$it, $kind cells: revert" $?
        is_done "$it, $kind cells: revert" old
    done
    foreigners=$((foreigners + 1))
}

# ---- what goes wrong, by the line that is shown

# A board: NAME KEYS.. are the lines of controller and quiet ranges.
board() {
    local name=$1
    shift
    {
        printf 'ram = { base = 0x20000000, size = 16384 }\nregion = [{ base = 0x08000000, sectors = [[64, 1024]] }]\n'
        printf '%s\n' "$@"
    } > "$name"
}

# Programs an image over cells of a kind, which ends with a status and a line that matches; where no cell changed, revert ends:
# KIND BOARD FLM STATUS PATTERN.
shows() {
    local name="$3 on $2, $1 cells: $5" status
    made "$1" 0 $((size < 3000 ? size : 3000))
    "$program" job cells program --raw-at "$(hexadecimal 0)" "$2" "$3" image > out 2> err
    status=$?
    row "$name: the status $status" "$([ $status = "$4" ]; echo $?)"
    row "$name: the line" "$(grep -q -x -e "flmprog: $5" err; echo $?)"
    [ "$(free)" = 0 ] && return
    row "$name: the cells" "$(same cells old)"
    "$program" job cells revert > out 2> revert.err
    row "$name: revert" $?
    row "$name: the cells after it" "$(same cells old)"
}

# Programs an image as the cure wants it: KIND BOARD FLM.
cured() {
    local name="$3 on $2, $1 cells"
    made "$1" 0 3000
    "$program" job cells program --raw-at "$(hexadecimal 0)" "$2" "$3" image > out 2> err
    row "$name: the cure" $?
    is_done "$name: the cure" new
}

# The place of the last line in the code: PC minus the RAM's base minus 32, where objdump shows an instruction: FILE INSTRUCTION.
place_shows() {
    local pc
    pc=$(sed -n 's/.* at \([0-9A-F]*\).*/\1/p' err)
    pc=$(printf '%x' $((0x$pc - 0x20000000 - 32)))
    row "$1: objdump shows $2 at $pc" "$(arm-none-eabi-objdump -d -j PrgCode "$1" | grep -q -e "^ *$pc:.*$2"; echo $?)"
}

# The algorithm in C, with what makes it go wrong, as NAME.flm: NAME DEFINITION..
variant() {
    take_compiled "$@" && make_flm "$1" gnu 1 "$1.flm" || exit 1
}

# The boards and the pack.
boards_and_packs() {
    fpec='controller = { base = 0x40022000, kind = "fpec" }'
    dog='{ base = 0x40003000, size = 12 }'
    board fpec.toml "$fpec" "quiet = [$dog]"
    board loud.toml "$fpec"
    board no_kind.toml 'controller = { base = 0x40022000 }' "quiet = [$dog]"
    board one.toml "$fpec" 'quiet = [{ base = 0x40000000, size = 0x30000 }]'
    board two.toml "$fpec" 'quiet = [{ base = 0x40000000, size = 0x22000 }, { base = 0x40022040, size = 0xDFC0 }]'
    board clock.toml "$fpec" "quiet = [$dog, { base = 0x40021000, size = 1024 }]"
    board banks.toml "$fpec" "quiet = [$dog, { base = 0x40022040, size = 64 }]"
    board quick.toml "${fpec% \}}, program_ticks = 1, erase_ticks = 1, chip_ticks = 1 }" "quiet = [$dog]"
    board hurried.toml "$fpec" "quiet = [$dog]" 'clock.steps_per_ms = 10'
    it='a pack'
    mkdir Flash && cp compiled.flm Flash/part.FLM && python3 -m zipfile -c part.pack Flash/
    "$program" job cells inspect part.pack > out 2> err
    row "$it: the status" "$([ $? = 5 ]; echo $?)"
    row "$it: the line" "$([ "$(cat err)" = 'flmprog: flm: Elf NotElf' ]; echo $?)"
    python3 -m zipfile -e part.pack part
    "$program" job cells inspect part/Flash/part.FLM > out 2> err
    row "$it: inspect of what is in it" $?
}

# Peripherals and the kind of the controller.
peripherals_and_kinds() {
    shows blank loud.toml compiled.flm 11 'call 1 Init: bus fault at [0-9A-F]* address 40003000'
    place_shows compiled.linked str
    cured used fpec.toml compiled.flm
    made blank 0 3000
    "$program" job cells plan --raw-at 0x08000000 one.toml compiled.flm image > out 2> err
    row 'one range over all: the line' "$([ "$(cat err)" = 'flmprog: board: Overlap controller quiet' ]; echo $?)"
    cured used two.toml compiled.flm
    shows blank no_kind.toml compiled.flm 11 'call 1 Init: bus fault at [0-9A-F]* address 4002201C'
    if [ -e pyocd.flm ]; then
        shows blank no_kind.toml pyocd.flm 11 'call 2 ProgramPage: answered 00000001'
        shows used no_kind.toml pyocd.flm 11 'call 2 EraseSector: bus fault at [0-9A-F]* address 40022014'
        place_shows pyocd.flm str
        cured blank fpec.toml pyocd.flm
        cured used fpec.toml pyocd.flm
    fi
    if [ -e stlink.flm ]; then
        shows blank no_kind.toml stlink.flm 12 'mismatch at 08000000 wanted [0-9A-F]* found FF'
        cured blank fpec.toml stlink.flm
    fi
}

# Cores, clocks, buffers, operations that run, keys, option bytes and banks.
what_isnt_there() {
    if [ -e $targets/target_STM32F103RC.py ]; then
        vendors pyocd $targets/target_STM32F103RC.py wide && make_flm wide armlink 1 wide.flm || exit 1
        shows blank fpec.toml wide.flm 11 'call 2 ProgramPage: undefined at [0-9A-F]*'
        place_shows wide.flm '[.]w'
        shows used fpec.toml wide.flm 11 'call 2 EraseSector: undefined at [0-9A-F]*'
    fi
    for name in CLOCK PREFETCH STALLS KEYS BANKS; do
        variant $name -D$name
    done
    shows blank fpec.toml CLOCK.flm 11 'call 1 Init: bus fault at [0-9A-F]* address 40021000'
    shows blank clock.toml CLOCK.flm 11 'call 1 Init: no fuel at [0-9A-F]*'
    shows used fpec.toml PREFETCH.flm 11 'call 1 Init: no fuel at [0-9A-F]*'
    made blank 0 3000
    "$program" job cells program --raw-at 0x08000000 hurried.toml compiled.flm image > out 2> err
    row 'a short time-out: the status' "$([ $? = 11 ]; echo $?)"
    row 'a short time-out: the line' "$(grep -q -x 'flmprog: call 2 ProgramPage: no fuel at [0-9A-F]*' err; echo $?)"
    cured blank fpec.toml compiled.flm
    shows blank fpec.toml STALLS.flm 11 'call 2 ProgramPage: bus fault at [0-9A-F]* address 08000002'
    place_shows STALLS.linked strh
    cured used quick.toml STALLS.flm
    shows blank fpec.toml KEYS.flm 12 'mismatch at 08000000 wanted [0-9A-F]* found FF'
    shows blank fpec.toml BANKS.flm 11 'call 1 Init: bus fault at [0-9A-F]* address 40022044'
    cured used banks.toml BANKS.flm
}

# An image in the second bank, whose registers are quiet.
second_bank() {
    made used 40000 3000
    "$program" job cells program --raw-at "$(hexadecimal 40000)" banks.toml BANKS.flm image > out 2> err
    row 'in the second bank: the status' "$([ $? = 12 ]; echo $?)"
    row 'in the second bank: the line' "$(grep -q -x 'flmprog: mismatch at 08009C40 wanted [0-9A-F]* found [0-9A-F]*' err; echo $?)"
    row 'in the second bank: the cells' "$(same cells old)"
}

# Files for option bytes, one of which reads back what it programmed.
option_bytes() {
    local base=0x1FFFF800 size=16 sector=16 page=16
    take_compiled options -DOPTIONS && take_compiled reading -DOPTIONS -DREADS || exit 1
    sed "s/0x08000000, sectors = .*/$base, sectors = [[1, 16]] }]/" fpec.toml > options.toml
    for kind in blank used; do
        shows $kind options.toml options.linked 12 'mismatch at 1FFFF80[0-9A-F] wanted [0-9A-F]* found [0-9A-F]*'
        shows $kind options.toml reading.linked 11 'call [25] ProgramPage: answered 00000001'
    done
}

# The file of a family on a part with half of its flash, which is programmed as the larger one.
smaller_part() {
    local it='a smaller part'
    sed 's/64, 1024/32, 1024/' fpec.toml > small.toml
    made used 300 20000
    head -c 32768 old > cells
    "$program" job cells plan "${words[@]:0:2}" small.toml compiled.flm image > out 2> err
    row "$it: the status" "$([ $? = 5 ]; echo $?)"
    row "$it: the line" "$([ "$(cat err)" = 'flmprog: flm: other device 08000000 65536' ]; echo $?)"
    head -c 32768 /dev/zero | tr '\0' '\377' >> cells
    "$program" job cells program "${words[@]:0:2}" fpec.toml compiled.flm image > out 2> err
    row "$it: the cure" $?
    row "$it: the cells" "$(same <(head -c 32768 cells) <(head -c 32768 new))"
    row "$it: the cells that it hasn't" "$([ -z "$(tail -c 32768 cells | tr -d '\377' | head -c 1)" ]; echo $?)"
}

# An algorithm whose Init reads something, and whose functions do nothing else: NAME INSTRUCTION..
reading() {
    local name=$1
    shift
    {
        printf '.syntax unified\n.cpu cortex-m0\n.thumb\n.section PrgCode, "ax", %%progbits\n.global Init, UnInit, EraseSector, ProgramPage\n'
        printf '.thumb_func\nInit:\n'
        printf '%s\n' "$@"
        printf '.thumb_func\nUnInit:\n.thumb_func\nEraseSector:\n.thumb_func\nProgramPage:\nmovs r0, #0\nbx lr\n.ltorg\n'
    } > "$name.s"
    arm-none-eabi-as -o "$name.o" "$name.s" && take_linked "$name" "$name.o" && make_flm "$name" gnu 1 "$name.flm" || exit 1
}

# Registers that no board has.
registers() {
    local name
    for name in CONTROL IPSR PSP; do
        reading $name "mrs r0, $name"
        shows blank fpec.toml $name.flm 11 'call 1 Init: undefined at 20000020'
    done
    reading flash_size 'ldr r0, =0x1FFFF7CC' 'ldrh r0, [r0]'
    shows blank fpec.toml flash_size.flm 11 'call 1 Init: bus fault at 20000022 address 1FFFF7CC'
    reading identity 'ldr r0, =0x40015800' 'ldr r0, [r0]'
    shows blank fpec.toml identity.flm 11 'call 1 Init: bus fault at 20000022 address 40015800'
    board known.toml "$fpec" "quiet = [$dog, { base = 0x1FFFF7CC, size = 4 }, { base = 0x40015800, size = 4 }]"
    shows blank known.toml flash_size.flm 12 'mismatch at 08000000 wanted [0-9A-F]* found FF'
    shows blank known.toml identity.flm 12 'mismatch at 08000000 wanted [0-9A-F]* found FF'
}

# The files that stand in data/ are what its C gives, where the compiler is the one that made them.
kept_files() {
    if [ "$(arm-none-eabi-gcc -dumpversion)" != 12.2.1 ]; then
        echo "left out: data/*.flm were made by GCC 12.2.1"
        return
    fi
    local name base size sector page=64
    while read -r name base size sector; do
        arm-none-eabi-gcc -mcpu=cortex-m0 -mthumb -Os -ffreestanding -DBASE="$base" -DSIZE="$size" -DPAGE=$page -DSECTOR="$sector" -c -o kept.o \
            "$tests/data/vendor.c" && arm-none-eabi-ld -n -T "$tests/data/vendor.ld" -o kept kept.o && arm-none-eabi-objcopy --strip-debug kept
        row "data/$name.flm" "$(same kept "$tests/data/$name.flm")"
    done <<< $'vendor 0x08000000 1024 256\nlow 0x08000000 1536 64\nhigh 0x08000600 1536 64'
}

foreigners=0
fpec_board board.toml 64 1024
take_algorithms
for algorithm in "${algorithms[@]}"; do
    for layout in gnu armlink; do
        for bit in 0 1; do
            run_with "$algorithm" $layout $bit
        done
    done
    echo "$algorithm: $right right, $wrong wrong"
done
tell_kills
if [ -e $targets/target_STM32F051T8.py ]; then
    for file in $(grep -l "'instructions'" $targets/*.py); do
        name=$(basename "$file" .py)
        [ $name = target_STM32F051T8 ] || foreign "${name#target_}" "$file"
    done
    echo "$foreigners algorithms for other controllers and cores: $right right, $wrong wrong"
fi
for algorithm in "${algorithms[@]}"; do
    make_flm $algorithm armlink 1 $algorithm.flm || exit 1
done
boards_and_packs
peripherals_and_kinds
what_isnt_there
second_bank
option_bytes
smaller_part
registers
kept_files
echo "$right right, $wrong wrong"
if [ $wrong = 0 ]; then rm -rf "$folder"; else echo "in $folder"; fi
[ $wrong = 0 ]
