addiu $1,$0,5
loop: addu $2,$2,$1
bne $1,$0,loop
addiu $1,$1,-1
