@ What target_vectors measures: code at 0x20000020, R0 the number of rounds, SP the end of 4,096 bytes of RAM, the return point
@ in LR. arm-none-eabi-as -mcpu=cortex-m0; each section is one file NAME.bin.

        .syntax unified
        .thumb

@ the core alone
        .section count, "ax"
1:      subs    r0, #1
        bne     1b
        bx      lr

@ a byte of the RAM loaded and stored
        .section copy, "ax"
        sub     sp, #8
        mov     r1, sp
1:      ldrb    r2, [r1, #0]
        strb    r2, [r1, #1]
        subs    r0, #1
        bne     1b
        add     sp, #8
        bx      lr

@ STATUS of the controller, as code that waits reads it
        .section poll, "ax"
        ldr     r1, =0x40022004
        movs    r3, #1
1:      ldr     r2, [r1, #0]
        tst     r2, r3
        bne     2f
        subs    r0, #1
        bne     1b
2:      bx      lr
        .pool

@ The chip is erased, and its 1,024 bytes are programmed halfword by halfword. R0 is 0 where no call failed.
        .section program, "ax"
        push    {r4, r5, lr}
        movs    r4, r0
        bl      init
1:      ldr     r0, =0x08000000
        bl      chip
        movs    r5, r0
        ldr     r0, =0x08000000
        ldr     r1, =1024
        ldr     r2, =0x20000800
        bl      page
        orrs    r5, r0
        bne     2f
        subs    r4, #1
        bne     1b
2:      movs    r0, r5
        pop     {r4, r5, pc}

@ both keys
init:   ldr     r3, =0x40022000
        ldr     r1, =0x45670123
        str     r1, [r3, #0]
        ldr     r1, =0xCDEF89AB
        str     r1, [r3, #0]
        movs    r0, #0
        bx      lr

@ command 3, and the wait for its end
chip:   movs    r2, #3
        ldr     r3, =0x40022000
        str     r2, [r3, #8]
        str     r0, [r3, #12]
        movs    r1, #1
        str     r1, [r3, #16]
1:      ldr     r2, [r3, #4]
        tst     r2, r1
        bne     1b
        movs    r0, #0x1C
        ands    r0, r2
        movs    r2, #0x1E
        str     r2, [r3, #4]
        bx      lr

@ R1 bytes from R2 on to the address R0
page:   push    {r4, r5, lr}
        ldr     r3, =0x40022000
        movs    r4, #1
        str     r4, [r3, #8]
1:      cmp     r1, #0
        beq     3f
        ldrh    r5, [r2, #0]
        strh    r5, [r0, #0]
2:      ldr     r5, [r3, #4]
        tst     r5, r4
        bne     2b
        lsrs    r5, r5, #2
        lsls    r5, r5, #29
        bne     4f
        adds    r0, #2
        adds    r2, #2
        subs    r1, #2
        b       1b
3:      movs    r0, #0
        b       5f
4:      movs    r0, #1
5:      movs    r5, #0x1E
        str     r5, [r3, #4]
        pop     {r4, r5, pc}
        .pool

@ mixed instructions with calls
        .section mix, "ax"
        push    {r4, r5, r6, lr}
        sub     sp, #8
        mov     r1, sp
1:      ldr     r2, [r1, #0]
        adds    r2, r2, r0
        lsrs    r3, r2, #3
        eors    r2, r3
        str     r2, [r1, #0]
        ldrb    r3, [r1, #1]
        strb    r3, [r1, #4]
        ldrh    r4, [r1, #2]
        muls    r4, r2
        cmp     r4, r3
        bcc     2f
        adds    r5, #1
2:      bl      rotate
        subs    r0, #1
        bne     1b
        add     sp, #8
        pop     {r4, r5, r6, pc}
rotate: push    {r6, lr}
        movs    r6, #5
        rors    r2, r6
        adcs    r5, r2
        pop     {r6, pc}

@ a word of the RAM loaded and stored
        .section word, "ax"
        sub     sp, #8
        mov     r1, sp
1:      ldr     r2, [r1, #0]
        str     r2, [r1, #4]
        subs    r0, #1
        bne     1b
        add     sp, #8
        bx      lr

@ a halfword of the flash
        .section flash_half, "ax"
        movs    r1, #1
        lsls    r1, r1, #27
1:      ldrh    r2, [r1, #2]
        subs    r0, #1
        bne     1b
        bx      lr

@ a word of the flash
        .section flash_word, "ax"
        movs    r1, #1
        lsls    r1, r1, #27
1:      ldr     r2, [r1, #4]
        subs    r0, #1
        bne     1b
        bx      lr

@ the chip is erased, and the wait for its end is the most of it
        .section wait, "ax"
        ldr     r3, =0x40022000
        ldr     r1, =0x45670123
        str     r1, [r3, #0]
        ldr     r1, =0xCDEF89AB
        str     r1, [r3, #0]
        movs    r1, #1
        movs    r2, #3
        str     r2, [r3, #8]
1:      str     r1, [r3, #16]
2:      ldr     r2, [r3, #4]
        tst     r2, r1
        bne     2b
        subs    r0, #1
        bne     1b
        bx      lr
        .pool
