# What the scripts on whole devices share: boards, flash algorithms, firmware and cells. A script reads it in, in a folder of its own, with
# `data` set to the folder crates/target_vectors/data and `tests` to this one. It wants as, ld, gcc and objcopy of arm-none-eabi.
. "$tests/bytes.sh"

# A board: NAME SECTORS SIZE, of so many sectors of so many bytes.
board() {
    printf '[ram]\nbase = 0x20000000\nsize = 8192\n[[region]]\nbase = 0x08000000\nsectors = [[%d, %d]]\n[controller]\nbase = 0x40022000\n' \
        "$2" "$3" > "$1"
}

# The algorithm that keeps its duties, in assembler, for such a board: NAME SECTORS SIZE PAGE.
algorithm() {
    sed -e "s/0x08000000, 1024, PAGE, 0/0x08000000, $(($2 * $3)), PAGE, 0/" -e "s/256, 0\$/$3, 0/" "$data/algorithms.s" > "$1.s" &&
        arm-none-eabi-as --defsym KIND=1 --defsym PAGE="$4" --defsym PROG=100 --defsym ERASE=500 -o "$1.o" "$1.s" &&
        arm-none-eabi-ld -n -T "$data/algorithms.ld" -o "$1" "$1.o"
}

# The same in C, with static data: NAME SECTORS SIZE PAGE.
compiled_algorithm() {
    sed -e "s/0x08000000, 1024, 64, 0, 0xFF, 100, 500, { { 256, 0 }/0x08000000, $(($2 * $3)), $4, 0, 0xFF, 100, 500, { { $3, 0 }/" \
        "$data/flash.c" > "$1.c" &&
        arm-none-eabi-gcc -mcpu=cortex-m0 -mthumb -Os -ffreestanding -fpic -msingle-pic-base -mpic-register=r9 \
            -mno-pic-data-is-text-relative -c -o "$1.o" "$1.c" &&
        arm-none-eabi-ld -n -T "$data/flash.ld" -o "$1.elf" "$1.o" &&
        arm-none-eabi-objcopy --rename-section PrgZero=PrgData "$1.elf" "$1"
}

# A board with FPEC: NAME SECTORS SIZE.
fpec_board() { board "$1" "$2" "$3" && printf 'kind = "fpec"\n' >> "$1"; }

# The algorithm in C for FPEC: NAME SECTORS SIZE PAGE.
fpec_algorithm() {
    sed -e "s/0x08000000, 1024, 64, 0, 0xFF, 100, 500, { { 256, 0 }/0x08000000, $(($2 * $3)), $4, 0, 0xFF, 100, 500, { { $3, 0 }/" \
        "$data/flash_fpec.c" > "$1.c" &&
        arm-none-eabi-gcc -mcpu=cortex-m0 -mthumb -Os -ffreestanding -fpic -msingle-pic-base -mpic-register=r9 \
            -mno-pic-data-is-text-relative -c -o "$1.o" "$1.c" &&
        arm-none-eabi-ld -n -T "$data/flash.ld" -o "$1.elf" "$1.o" &&
        arm-none-eabi-objcopy --rename-section PrgZero=PrgData "$1.elf" "$1"
}

# Firmware from C, with a table of so many words that makes it long: NAME WORDS. NAME is the ELF file, NAME.bin its bytes from 0x08000000 on.
firmware() {
    cat > "$1.c" <<'CODE'
extern const unsigned table[WORDS];
const unsigned table[WORDS] = { [0 ... WORDS - 1] = 0x5EED0001 };
unsigned volatile sum;
static unsigned mixed(unsigned value)
{
    value ^= value << 13;
    value ^= value >> 17;
    return value ^ value << 5;
}
int main(void)
{
    unsigned i, value = 1;
    for (i = 0; i < WORDS; i += 1)
        sum += value = mixed(value ^ table[i]);
    for (;;)
        ;
}
void reset(void) { main(); }
void *const vectors[2] __attribute__((section(".vectors"), used)) = { (void *)0x20002000, (void *)reset };
CODE
    arm-none-eabi-gcc -mcpu=cortex-m0 -mthumb -Os -ffreestanding -DWORDS="$2" -nostdlib -Wl,-n -Wl,--section-start=.vectors=0x08000000 \
        -Wl,-Ttext=0x08000008 -Wl,-e,reset -o "$1" "$1.c" &&
        arm-none-eabi-objcopy -O binary -j .vectors -j .text -j .rodata "$1" "$1.bin"
}
