addiu $0,$0,5
