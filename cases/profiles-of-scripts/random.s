# Random in the first step, and then a loop
        mfc0  $1,$1,0
stop:   beq   $0,$0,stop
        sll   $0,$0,0
