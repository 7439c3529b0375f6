# writes each byte of its console's input back, and counts turns in register 2
        lui   $26,0xbf00        # the devices
next:   lw    $27,4($26)        # CON_IN
        bltz  $27,next
        addiu $2,$2,1           # in the delay slot
        beq   $0,$0,next
        sw    $27,8($26)        # CON_OUT, in the delay slot
