# a firmware that prints how many entries the TLB has, by Config1
        mfc0  $4,$16,1
        srl   $4,$4,25          # the number of the last one
        addiu $4,$4,1
        lui   $1,0xbf00
        sw    $4,8($1)          # the console's output
stop:   beq   $0,$0,stop
        sll   $0,$0,0
