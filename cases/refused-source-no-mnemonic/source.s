eret
bgt $1,$2