@ The flash algorithms A1 to A7 for the controller FC1 at 0x40022000, and a device of four sectors of 256 bytes.
@
@ KIND is the algorithm, PAGE the bytes of a page, PROG and ERASE the time-outs in milliseconds:
@   arm-none-eabi-as --defsym KIND=1 --defsym PAGE=64 --defsym PROG=100 --defsym ERASE=500 -o a1.o algorithms.s
@   arm-none-eabi-ld -n -T algorithms.ld -o a1.flm a1.o
@ A1 keeps its duties. A2 does nothing and says that it did. A3 never returns from EraseSector. A4 begins to erase the chip in UnInit
@ after programming. A5 erases another sector. A6 refuses EraseSector, and A7 leaves the Thumb state there.

        .syntax unified
        .cpu    cortex-m0
        .thumb

        .section PrgCode, "ax", %progbits
        .global Init, UnInit, EraseChip, EraseSector, ProgramPage
        .if KIND != 2 && KIND != 4
        .global Verify
        .endif

Init:   ldr     r3, base
        ldr     r1, key1
        str     r1, [r3, #0]
        ldr     r1, key2
        str     r1, [r3, #0]
        movs    r0, #0
        bx      lr

UnInit:
        .if KIND == 4
        b       lie
        .else
        ldr     r3, base
        .endif
        movs    r0, #0
        str     r0, [r3, #0]
        bx      lr

EraseChip:
        .if KIND == 2
        movs    r0, #0
        bx      lr
        .else
        movs    r2, #3
        b       erase
        .endif

EraseSector:
        .if KIND == 2
        movs    r0, #0
erase:  bx      lr
        .elseif KIND == 6
        movs    r0, #1
erase:  bx      lr
        .elseif KIND == 7
        movs    r2, #0
erase:  bx      r2
        .else
        .if KIND == 3
        b       EraseSector
        .else
        .if KIND == 5
        movs    r1, #1
        lsls    r1, r1, #8
        eors    r0, r1
        .endif
        movs    r2, #2
        .endif
erase:  ldr     r3, base
        .endif
        str     r2, [r3, #8]
        str     r0, [r3, #12]
        movs    r1, #1
        str     r1, [r3, #16]
wait:   ldr     r2, [r3, #4]
        tst     r2, r1
        bne     wait
        movs    r0, #0x1C
        ands    r0, r2
        movs    r2, #0x1E
        str     r2, [r3, #4]
        cmp     r0, #0
        beq     out
        movs    r0, #1
out:    bx      lr

ProgramPage:
        .if KIND == 2
        movs    r0, #0
        bx      lr
        .else
        push    {r4, r5, lr}
        ldr     r3, base
        .endif
        movs    r4, #1
        str     r4, [r3, #8]
pnext:  cmp     r1, #0
        beq     pdone
        ldrh    r5, [r2, #0]
        strh    r5, [r0, #0]
pwait:  ldr     r5, [r3, #4]
        tst     r5, r4
        bne     pwait
        lsrs    r5, r5, #2
        lsls    r5, r5, #29
        bne     pfail
        adds    r0, #2
        adds    r2, #2
        subs    r1, #2
        b       pnext
pdone:  movs    r0, #0
        b       pout
pfail:  movs    r0, #1
pout:   movs    r5, #0x1E
        str     r5, [r3, #4]
        pop     {r4, r5, pc}

Verify: push    {r4, lr}
vnext:  cmp     r1, #0
        beq     vout
        ldrb    r3, [r0, #0]
        ldrb    r4, [r2, #0]
        cmp     r3, r4
        bne     vout
        adds    r0, #1
        adds    r2, #1
        subs    r1, #1
        b       vnext
vout:   pop     {r4, pc}

        .if KIND == 4
lie:    ldr     r3, base
        cmp     r0, #2
        bne     lied
        movs    r0, #3
        str     r0, [r3, #8]
        movs    r0, #1
        str     r0, [r3, #16]
lied:   movs    r0, #0
        bx      lr
        .endif

        .align
base:   .word   0x40022000
key1:   .word   0x45670123
key2:   .word   0xCDEF89AB

        .section DevDscr, "a", %progbits
        .global FlashDevice
FlashDevice:
        .short  0x0101
        .ascii  "FC1"
        .zero   125
        .short  1
        .word   0x08000000, 1024, PAGE, 0
        .byte   0xFF, 0, 0, 0
        .word   PROG, ERASE
        .word   256, 0
        .word   0xFFFFFFFF, 0xFFFFFFFF
