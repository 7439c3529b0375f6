addiu $1,$0,5
addu $2,$2,$1
bne $1,$0,0x80000004
addiu $1,$1,-1
