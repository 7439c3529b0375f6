lui $1,0xbf00
addiu $2,$0,0x41
loop: sw $2,8($1)
mfc0 $3,$9,0
wait 0
lw $4,0($1)
slti $5,$2,0x45
bne $5,$0,loop
addiu $2,$2,1
stop: beq $0,$0,stop
mtc0 $3,$14,0
