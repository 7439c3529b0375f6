loop: beq $0,$0,loop
addiu $1,$1,1
