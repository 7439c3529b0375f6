lui $1,0x8000
addiu $2,$0,-1
div $1,$2
