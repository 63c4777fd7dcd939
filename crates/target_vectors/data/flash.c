/* A flash algorithm for the controller FC1 with static data. Where the controller lies and its keys are initialised; what Init was called
   for and how many operations have ended begin as zero. All of it is reached by way of R9, which holds the address of the table of
   addresses that the linker puts first. These addresses are absolute, so the code is linked to where it is loaded:

   arm-none-eabi-gcc -mcpu=cortex-m0 -mthumb -Os -ffreestanding -fpic -msingle-pic-base -mpic-register=r9
       -mno-pic-data-is-text-relative -c flash.c
   arm-none-eabi-ld -n -T flash.ld -o flash.elf flash.o
   arm-none-eabi-objcopy --rename-section PrgZero=PrgData flash.elf flash.flm */

typedef unsigned int u32;
typedef unsigned short u16;
typedef unsigned char u8;

struct block { u32 key, status, command, address, start; };

static struct block volatile *volatile block = (struct block volatile *)0x40022000;
static u32 volatile keys[2] = { 0x45670123, 0xCDEF89AB };
static u32 kind;
static u32 ended;

static u32 wait(void)
{
    u32 status;
    do
        status = block->status;
    while (status & 1);
    block->status = 0x1E;
    ended += 1;
    return status & 0x1C;
}

static int erase(u32 command, u32 address)
{
    if (kind != 1)
        return 2;
    block->command = command;
    block->address = address;
    block->start = 1;
    return wait() != 0;
}

int Init(u32 address, u32 clock, u32 what_for)
{
    u32 key;
    for (key = 0; key < 2; key += 1)
        block->key = keys[key];
    kind = what_for;
    return ended != 0;
}

int UnInit(u32 what_for)
{
    block->key = 0;
    return what_for != kind;
}

int EraseChip(void)
{
    return erase(3, 0);
}

int EraseSector(u32 address)
{
    return erase(2, address);
}

int ProgramPage(u32 address, u32 size, u8 *bytes)
{
    u32 place;
    if (kind != 2)
        return 2;
    block->command = 1;
    for (place = 0; place < size; place += 2) {
        *(u16 volatile *)(address + place) = *(u16 *)(bytes + place);
        if (wait())
            return 1;
    }
    return 0;
}

u32 Verify(u32 address, u32 size, u8 *bytes)
{
    u32 place;
    for (place = 0; place < size; place += 1)
        if (*(u8 *)(address + place) != bytes[place])
            break;
    return address + place;
}

struct device {
    u16 version;
    char name[128];
    u16 kind;
    u32 base, size, page, reserved;
    u8 empty;
    u32 to_program, to_erase;
    u32 sectors[2][2];
};

const struct device FlashDevice __attribute__((section("DevDscr"))) = {
    0x0101, "FC1 in C", 1, 0x08000000, 1024, 64, 0, 0xFF, 100, 500, { { 256, 0 }, { 0xFFFFFFFF, 0xFFFFFFFF } }
};
