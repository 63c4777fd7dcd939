Init:        LDR R3, table
             LDR R3, [R3, #0]
             MOVS R0, #0
             BX LR
UnInit:      MOVS R0, #0
             BX LR
EraseSector: MOVS R0, #1
             BX LR
ProgramPage: MOVS R0, #1
             BX LR
             .align
table:       .word 0x20000000
