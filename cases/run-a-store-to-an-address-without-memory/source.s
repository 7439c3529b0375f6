lui $1,0xbfc0
sw $2,0($1)
