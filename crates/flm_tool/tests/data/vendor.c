/* A flash algorithm for the FPEC of STM32F0 and F1 parts with the register accesses that the files of packs make: Init slows the independent
   watchdog where the option byte has started it, and an erasure serves it while it waits. None of it is a vendor's text.

   arm-none-eabi-gcc -mcpu=cortex-m0 -mthumb -Os -ffreestanding -DBASE=0x08000000 -DSIZE=1024 -DPAGE=64 -DSECTOR=256 -c vendor.c
   arm-none-eabi-ld -n -T vendor.ld -o vendor.flm vendor.o
   arm-none-eabi-objcopy --strip-debug vendor.flm

   make vendor.flm. low.flm and high.flm are for two halves of a flash, of 24 sectors of 64 bytes each: -DSIZE=1536 -DPAGE=64 -DSECTOR=64 with
   -DBASE=0x08000000 and -DBASE=0x08000600.

   Each of these makes of it one that goes wrong here: -DCLOCK waits for a clock, -DPREFETCH for the prefetch buffer, -DSTALLS goes on while a unit is
   programmed and leaves the waiting to the part, -DKEYS unlocks in each function, -DOPTIONS programs option bytes, and -DBANKS has a second bank in
   the second half. -DREADS reads back what it programmed. */

typedef unsigned int u32;
typedef unsigned short u16;
typedef unsigned char u8;

struct flash { u32 acr, keyr, optkeyr, sr, cr, ar, reserved, obr, wrpr; };
struct watchdog { u32 kr, pr, rlr; };

#define FLASH ((struct flash volatile *)0x40022000)
#define WATCHDOG ((struct watchdog volatile *)0x40003000)
#define RCC_CR (*(u32 volatile *)0x40021000)

#define HSION (1 << 0)
#define HSIRDY (1 << 1)
#define SR_BSY (1 << 0)
#define SR_PGERR (1 << 2)
#define SR_WRPRTERR (1 << 4)
#define OBR_WDG_SW (1 << 2)
#define ACR_PRFTBE (1 << 4)
#define ACR_PRFTBS (1 << 5)
#define CR_STRT (1 << 6)
#define CR_LOCK (1 << 7)

#ifdef OPTIONS
#define CR_PG (1 << 4)
#define CR_PER (1 << 5)
#else
#define CR_PG (1 << 0)
#define CR_PER (1 << 1)
#endif
#define CR_MER (1 << 2)

/* The registers of the bank in which an address lies. */
static struct flash volatile *bank(u32 address)
{
#ifdef BANKS
    if (address >= BASE + SIZE / 2)
        return (struct flash volatile *)0x40022040;
#endif
    return FLASH;
}

static void unlock(u32 address)
{
    bank(address)->keyr = 0x45670123;
    bank(address)->keyr = 0xCDEF89AB;
#ifdef OPTIONS
    FLASH->optkeyr = 0x45670123;
    FLASH->optkeyr = 0xCDEF89AB;
#endif
}

static void wait(struct flash volatile *flash)
{
    while (flash->sr & SR_BSY)
        WATCHDOG->kr = 0xAAAA;
}

int Init(u32 address, u32 clock, u32 what_for)
{
    unlock(BASE);
#ifdef BANKS
    unlock(BASE + SIZE / 2);
#endif
#ifdef CLOCK
    RCC_CR |= HSION;
    while (!(RCC_CR & HSIRDY))
        ;
#endif
    FLASH->acr = 0;
#ifdef PREFETCH
    FLASH->acr |= ACR_PRFTBE;
    while (!(FLASH->acr & ACR_PRFTBS))
        ;
#endif
    FLASH->sr |= SR_PGERR;
    if (!(FLASH->obr & OBR_WDG_SW)) {
        WATCHDOG->kr = 0x5555;
        WATCHDOG->pr = 6;
        WATCHDOG->rlr = 4095;
    }
    return 0;
}

int UnInit(u32 what_for)
{
    FLASH->cr |= CR_LOCK;
    return 0;
}

static int erase(u32 address, u32 kind)
{
    struct flash volatile *flash = bank(address);
#ifdef KEYS
    unlock(address);
#endif
    flash->cr |= kind;
    flash->ar = address;
    flash->cr |= CR_STRT;
    wait(flash);
    flash->cr &= ~kind;
    return 0;
}

#ifndef OPTIONS
int EraseChip(void) { return erase(BASE, CR_MER); }
#endif

int EraseSector(u32 address) { return erase(address, CR_PER); }

#ifdef STALLS
int ProgramPage(u32 address, u32 size, u16 *bytes)
{
    u32 place;
    FLASH->cr |= CR_PG;
    for (place = 0; place < size; place += 2)
        *(u16 volatile *)(address + place) = *bytes++;
    wait(FLASH);
    FLASH->cr &= ~CR_PG;
    return 0;
}
#else
int ProgramPage(u32 address, u32 size, u16 *bytes)
{
    struct flash volatile *flash = bank(address);
    u32 place;
#ifdef KEYS
    unlock(address);
#endif
    for (place = 0; place < size; place += 2) {
        flash->cr |= CR_PG;
        *(u16 volatile *)(address + place) = *bytes++;
        wait(flash);
        flash->cr &= ~CR_PG;
        if (flash->sr & (SR_PGERR | SR_WRPRTERR)) {
            flash->sr |= SR_PGERR | SR_WRPRTERR;
            return 1;
        }
#ifdef READS
        if (*(u16 volatile *)(address + place) != bytes[-1])
            return 1;
#endif
    }
    return 0;
}
#endif

struct device {
    u16 version;
    char name[128];
    u16 kind;
    u32 base, size, page, reserved;
    u8 empty;
    u32 to_program, to_erase;
    u32 sectors[2][2];
};

const struct device FlashDevice __attribute__((section("DevDscr"))) = {
    0x0101, "As a vendor writes it", 1, BASE, SIZE, PAGE, 0, 0xFF, 100, 500, { { SECTOR, 0 }, { 0xFFFFFFFF, 0xFFFFFFFF } }
};
