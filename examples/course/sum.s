# The sum of a list: 3 + 1 + 4 + 1 + 5 + 9 + 2 + 6, 31, in $v0.

        la    $t0,list          # the next number
        la    $t1,end           # where the list ends
        li    $v0,0
        beq   $t0,$t1,stop      # an empty list has the sum 0
        nop
next:   lw    $t2,0($t0)
        addiu $t0,$t0,4
        bne   $t0,$t1,next
        addu  $v0,$v0,$t2       # in the delay slot
stop:   b     stop
        nop

        .org  0x80000180        # where an exception would lead: the program stays there
fault:  b     fault
        nop

        .org  0x80001000
list:   .word 3, 1, 4, 1, 5, 9, 2, 6
end:
