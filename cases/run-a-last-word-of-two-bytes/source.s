addiu $1,$0,7
addiu $2,$0,9
.byte 0x21
.byte 0x10
