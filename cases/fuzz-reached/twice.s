# a piece that is run through the uncached segment first, and then through the cached one
.entry start
.org 0x80000200
start: lui $8,0xa000
ori $8,$8,0x0214
lui $9,0x8000
jr $8
ori $9,$9,0x0214
piece: jr $9
addiu $9,$9,0x0014
.org 0x80000228
stop: beq $0,$0,stop
sll $0,$0,0
