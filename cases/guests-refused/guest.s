stop:   beq   $0,$0,stop
        sll   $0,$0,0
