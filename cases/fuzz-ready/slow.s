# writes a B and counts down from 100; then it takes its input a byte after another: an even byte is written to the output, an odd one makes a system call
.entry start
.org 0x80000180
caught: beq $0,$0,caught
sll $0,$0,0
.org 0x80000200
start: lui $8,0xbf00
addiu $9,$0,0x42
sw $9,8($8)
addiu $11,$0,100
wait: bne $11,$0,wait
addiu $11,$11,-1
ready: lw $9,4($8)
bltz $9,stop
andi $10,$9,1
bne $10,$0,odd
sll $0,$0,0
beq $0,$0,ready
sw $9,8($8)
odd: syscall 0
stop: beq $0,$0,stop
sll $0,$0,0
