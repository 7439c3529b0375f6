# a program that raises an exception where the first byte of its input is odd
.entry start
.org 0x80000180
caught: beq $0,$0,caught
sll $0,$0,0
.org 0x80000200
start: lui $8,0xbf00
lw $9,4($8)
bltz $9,stop
andi $10,$9,1
beq $10,$0,stop
sll $0,$0,0
syscall 0
stop: beq $0,$0,stop
sll $0,$0,0
