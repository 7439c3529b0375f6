lui $1,0x7fff
ori $1,$1,0xffff
addiu $2,$0,1
add $3,$1,$2
