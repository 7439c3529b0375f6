# a jump to where there is no memory
.entry start
.org 0x80000200
start: lui $8,0x9000
jr $8
sll $0,$0,0
