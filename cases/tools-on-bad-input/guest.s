        addiu $2,$2,1
again:  b     again
