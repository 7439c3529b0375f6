addiu $1,$0,-1
bgezl $1,0x80000010
addiu $2,$0,5
addiu $4,$0,7
