# Sorts eight numbers by bubble sort. They are then in $s0 to $s7.

        la    $a0,list
        li    $a1,8
        jal   sort
        nop
        la    $a0,list
        lw    $s0,0($a0)
        lw    $s1,4($a0)
        lw    $s2,8($a0)
        lw    $s3,12($a0)
        lw    $s4,16($a0)
        lw    $s5,20($a0)
        lw    $s6,24($a0)
        lw    $s7,28($a0)
stop:   b     stop
        nop

# Sorts the $a1 words at $a0: each turn brings the greatest to the end, and the next turn has one word less.
sort:   addiu $a1,$a1,-1        # so many pairs
        blez  $a1,sorted
        nop
        move  $t0,$a0
        move  $t1,$a1
pair:   lw    $t2,0($t0)
        lw    $t3,4($t0)
        nop
        slt   $t4,$t3,$t2
        beqz  $t4,kept
        addiu $t1,$t1,-1        # in the delay slot
        sw    $t3,0($t0)
        sw    $t2,4($t0)
kept:   bnez  $t1,pair
        addiu $t0,$t0,4         # in the delay slot
        b     sort
        nop
sorted: jr    $ra
        nop

        .org  0x80000180
fault:  b     fault
        nop

        .org  0x80001000
list:   .word 31, -4, 15, 92, -65, 35, 8, 0
