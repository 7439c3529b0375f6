        addiu $1,$0,5
loop:   addu  $2,$2,$1
        bne   $1,$0,loop
        addiu $1,$1,-1          # in the delay slot
stop:   beq   $0,$0,stop
        sll   $0,$0,0
