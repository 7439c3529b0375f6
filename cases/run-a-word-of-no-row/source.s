addiu $1,$0,7
.word 0x200000
