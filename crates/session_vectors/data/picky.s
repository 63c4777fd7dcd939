@ A flash algorithm that refuses one of its calls, for the controller FC1 at 0x40022000 and a device of four sectors of 256 bytes with pages
@ of 64 bytes. The two bytes at 0x080003FC name the call: 1 for Init and 2 for UnInit with the kind, 3 for EraseSector with the number of the
@ sector, 4 for ProgramPage and 5 for Verify with the number of the page. That call answers 77 and does nothing.
@
@   arm-none-eabi-as -o picky.o picky.s
@   arm-none-eabi-ld -n -T algorithms.ld -o picky.flm picky.o

        .syntax unified
        .cpu    cortex-m0
        .thumb

        .section PrgCode, "ax", %progbits
        .global Init, UnInit, EraseSector, ProgramPage, Verify

Init:   push    {r4, r5, lr}
        movs    r3, #1
        movs    r4, r2
        bl      named
        beq     refuse
        bl      init
        pop     {r4, r5, pc}

UnInit: push    {r4, r5, lr}
        movs    r3, #2
        movs    r4, r0
        bl      named
        beq     refuse
        bl      uninit
        pop     {r4, r5, pc}

EraseSector:
        push    {r4, r5, lr}
        movs    r3, #3
        lsls    r4, r0, #16
        lsrs    r4, r4, #24
        bl      named
        beq     refuse
        bl      erase
        pop     {r4, r5, pc}

ProgramPage:
        push    {r4, r5, lr}
        movs    r3, #4
        lsls    r4, r0, #18
        lsrs    r4, r4, #24
        bl      named
        beq     refuse
        bl      program
        pop     {r4, r5, pc}

Verify: push    {r4, r5, lr}
        movs    r3, #5
        lsls    r4, r0, #18
        lsrs    r4, r4, #24
        bl      named
        beq     refuse
        bl      verify
        pop     {r4, r5, pc}

refuse: movs    r0, #0x77
        pop     {r4, r5, pc}

named:  ldr     r5, name
        ldrb    r5, [r5, #0]
        cmp     r5, r3
        bne     out
        ldr     r5, name
        ldrb    r5, [r5, #1]
        cmp     r5, r4
out:    bx      lr

init:   ldr     r3, base
        ldr     r1, key1
        str     r1, [r3, #0]
        ldr     r1, key2
        str     r1, [r3, #0]
        movs    r0, #0
        bx      lr

uninit: ldr     r3, base
        movs    r0, #0
        str     r0, [r3, #0]
        bx      lr

erase:  ldr     r3, base
        movs    r2, #2
        str     r2, [r3, #8]
        str     r0, [r3, #12]
        movs    r1, #1
        str     r1, [r3, #16]
wait:   ldr     r2, [r3, #4]
        tst     r2, r1
        bne     wait
        movs    r0, #0x1C
        ands    r0, r2
        movs    r2, #0x1E
        str     r2, [r3, #4]
        bx      lr

program:
        push    {r4, r5, lr}
        ldr     r3, base
        movs    r4, #1
        str     r4, [r3, #8]
pnext:  cmp     r1, #0
        beq     pdone
        ldrh    r5, [r2, #0]
        strh    r5, [r0, #0]
pwait:  ldr     r5, [r3, #4]
        tst     r5, r4
        bne     pwait
        adds    r0, #2
        adds    r2, #2
        subs    r1, #2
        b       pnext
pdone:  movs    r0, #0
        movs    r5, #0x1E
        str     r5, [r3, #4]
        pop     {r4, r5, pc}

verify: push    {r4, lr}
vnext:  cmp     r1, #0
        beq     vout
        ldrb    r3, [r0, #0]
        ldrb    r4, [r2, #0]
        cmp     r3, r4
        bne     vout
        adds    r0, #1
        adds    r2, #1
        subs    r1, #1
        b       vnext
vout:   pop     {r4, pc}

        .align
name:   .word   0x080003FC
base:   .word   0x40022000
key1:   .word   0x45670123
key2:   .word   0xCDEF89AB

        .section DevDscr, "a", %progbits
        .global FlashDevice
FlashDevice:
        .short  0x0101
        .ascii  "FC1"
        .zero   125
        .short  1
        .word   0x08000000, 1024, 64, 0
        .byte   0xFF, 0, 0, 0
        .word   100, 500
        .word   256, 0
        .word   0xFFFFFFFF, 0xFFFFFFFF
