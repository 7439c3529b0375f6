        addiu $2,$0,42
        .org 0x80002000
        .word 1
