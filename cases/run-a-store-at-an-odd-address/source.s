addiu $1,$0,7
sw $1,2($0)
