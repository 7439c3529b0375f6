addiu $1,$0,7
divu $1,$0
