        addiu $2,$0,5
        addiu $3,$0,1
