addiu $1,$0,7
.byte 0x21
