# The factorial of 7, 5040, in $v0, by a function that calls itself.

        li    $sp,0x80010000    # the stack ends at the end of 16 pages, and grows down
        li    $a0,7
        jal   factorial
        nop
stop:   b     stop
        nop

# The factorial of $a0, in $v0.
factorial:
        addiu $sp,$sp,-8
        sw    $ra,4($sp)
        sw    $s0,0($sp)
        move  $s0,$a0
        blez  $a0,leave
        li    $v0,1             # in the delay slot: 0! is 1
        jal   factorial
        addiu $a0,$a0,-1        # in the delay slot
        mul   $v0,$v0,$s0       # n! is (n - 1)! times n
leave:  lw    $s0,0($sp)
        lw    $ra,4($sp)
        nop
        jr    $ra
        addiu $sp,$sp,8         # in the delay slot

        .org  0x80000180
fault:  b     fault
        nop
