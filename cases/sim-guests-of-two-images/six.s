        addiu $2,$0,6
