lui $1,0xa000
lw $2,0($1)
