lui $1,0x7fff
ori $1,$1,0xffff
beq $0,$0,0x80000020
addi $3,$1,1
