addiu $1,$0,7
