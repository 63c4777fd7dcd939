@ What an FLM file needs round a loader that programs alone. -I names the folder of loader.bin, the loader's code with its BKPT made BX LR.
@ KIND 1 is that of OpenOCD, which takes its halfwords from a queue, and 2 that of stlink. The rest is register accesses of the FPEC.
        .syntax unified
        .cpu    cortex-m0
        .thumb

        .section PrgCode, "ax", %progbits
        .global Init, UnInit, EraseChip, EraseSector, ProgramPage

        .thumb_func
Init:   ldr     r3, flash
        ldr     r1, key1
        str     r1, [r3, #4]
        ldr     r1, key2
        str     r1, [r3, #4]
        movs    r0, #0x34
        str     r0, [r3, #12]
        movs    r0, #0
        bx      lr

        .thumb_func
UnInit: ldr     r3, flash
        movs    r0, #0x80
        str     r0, [r3, #16]
        movs    r0, #0
        bx      lr

        .thumb_func
EraseChip:
        movs    r2, #4
        b       erase

        .thumb_func
EraseSector:
        movs    r2, #2
erase:  ldr     r3, flash
        str     r2, [r3, #16]
        str     r0, [r3, #20]
        movs    r1, #0x40
        orrs    r1, r2
        str     r1, [r3, #16]
        movs    r1, #1
busy:   ldr     r2, [r3, #12]
        tst     r2, r1
        bne     busy
        movs    r1, #0
        str     r1, [r3, #16]
        movs    r0, #0x14
        ands    r0, r2
        bx      lr

@ R0 is the address, R1 the length and R2 where the bytes are.
        .thumb_func
ProgramPage:
        push    {r4, r5, r6, r7, lr}
        .if KIND == 1
        movs    r4, r0
        mov     r5, r9
        ldr     r0, [r5, #0]
        adds    r3, r2, r1
        str     r3, [r5, #8]
        str     r2, [r5, #12]
        adds    r3, #2
        lsrs    r1, r1, #1
        movs    r2, r5
        adds    r2, #8
        movs    r6, #1
        str     r6, [r0, #16]
        bl      loader
        movs    r1, #0x14
        ands    r0, r1
        ldr     r3, flash
        movs    r1, #0
        str     r1, [r3, #16]
        .else
        movs    r3, r1
        movs    r1, r0
        movs    r0, r2
        movs    r2, r3
        movs    r3, #0
        bl      loader
        movs    r0, r2
        .endif
        pop     {r4, r5, r6, r7, pc}

        .align
flash:  .word   0x40022000
key1:   .word   0x45670123
key2:   .word   0xCDEF89AB

        .thumb_func
loader: .incbin "loader.bin"
        .align

@ Where the registers are, a word that nothing reads, and the two ends of the queue.
        .if KIND == 1
        .section PrgData, "aw", %progbits
        .word   0x40022000, 0
        .section PrgZero, "aw", %nobits
        .space  8
        .endif
