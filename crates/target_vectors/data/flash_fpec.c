/* A flash algorithm for the controller FPEC, as one writes it for an STM32F0: the registers as a structure at their address, the bits by
   the names of the reference manual. It is built like flash.c. */

typedef unsigned int u32;
typedef unsigned short u16;
typedef unsigned char u8;

struct flash { u32 acr, keyr, optkeyr, sr, cr, ar, reserved, obr, wrpr; };

#define FLASH ((struct flash volatile *)0x40022000)

#define KEY1 0x45670123
#define KEY2 0xCDEF89AB

#define SR_BSY (1 << 0)
#define SR_PGERR (1 << 2)
#define SR_WRPRTERR (1 << 4)
#define SR_EOP (1 << 5)

#define CR_PG (1 << 0)
#define CR_PER (1 << 1)
#define CR_MER (1 << 2)
#define CR_STRT (1 << 6)
#define CR_LOCK (1 << 7)

/* How many operations have ended: static data, reached by way of R9. */
static u32 ended;

static int wait(void)
{
    u32 status;
    do
        status = FLASH->sr;
    while (status & SR_BSY);
    FLASH->sr = SR_EOP | SR_WRPRTERR | SR_PGERR;
    ended += 1;
    return (status & (SR_EOP | SR_WRPRTERR | SR_PGERR)) != SR_EOP;
}

int Init(u32 address, u32 clock, u32 what_for)
{
    FLASH->keyr = KEY1;
    FLASH->keyr = KEY2;
    FLASH->acr = 0;
    FLASH->sr = SR_EOP | SR_WRPRTERR | SR_PGERR;
    return ended != 0 || (FLASH->cr & CR_LOCK);
}

int UnInit(u32 what_for)
{
    FLASH->cr |= CR_LOCK;
    return !(FLASH->cr & CR_LOCK);
}

int EraseChip(void)
{
    int failed;
    FLASH->cr |= CR_MER;
    FLASH->cr |= CR_STRT;
    failed = wait();
    FLASH->cr &= ~CR_MER;
    return failed;
}

int EraseSector(u32 address)
{
    int failed;
    FLASH->cr |= CR_PER;
    FLASH->ar = address;
    FLASH->cr |= CR_STRT;
    failed = wait();
    FLASH->cr &= ~CR_PER;
    return failed;
}

int ProgramPage(u32 address, u32 size, u8 *bytes)
{
    u32 place;
    FLASH->cr |= CR_PG;
    for (place = 0; place < size; place += 2) {
        *(u16 volatile *)(address + place) = *(u16 *)(bytes + place);
        if (wait())
            break;
    }
    FLASH->cr &= ~CR_PG;
    return place < size;
}

struct device {
    u16 version;
    char name[128];
    u16 kind;
    u32 base, size, page, reserved;
    u8 empty;
    u32 to_program, to_erase;
    u32 sectors[2][2];
};

const struct device FlashDevice __attribute__((section("DevDscr"))) = {
    0x0101, "FPEC in C", 1, 0x08000000, 1024, 64, 0, 0xFF, 100, 500, { { 256, 0 }, { 0xFFFFFFFF, 0xFFFFFFFF } }
};
