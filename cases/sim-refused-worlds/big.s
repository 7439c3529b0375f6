        .word 0
        .space 16384
        .word 0
