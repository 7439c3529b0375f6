lui $1,0xbfc0
lw $2,0($1)
