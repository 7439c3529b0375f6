# Prints numbers in decimal, each in a line: -2147483648, 0 and 1234567890.

        li    $sp,0x80010000
        la    $s0,list
        la    $s1,end
next:   lw    $a0,0($s0)
        jal   decimal
        addiu $s0,$s0,4         # in the delay slot
        jal   put
        li    $a0,10            # in the delay slot: a line feed
        bne   $s0,$s1,next
        nop
stop:   b     stop
        nop

# Prints $a0 in decimal. The digits come from the last one on, so they are kept on the stack, above a zero.
decimal:
        addiu $sp,$sp,-8
        sw    $ra,4($sp)
        sw    $s2,0($sp)
        bgez  $a0,positive
        move  $s2,$a0           # in the delay slot
        jal   put
        li    $a0,45            # in the delay slot: a minus
        subu  $s2,$zero,$s2     # -2147483648 stays, and is right without a sign
positive:
        li    $t5,10
        addiu $sp,$sp,-4
        sw    $zero,0($sp)
digit:  divu  $s2,$t5
        mfhi  $t6
        mflo  $s2
        addiu $t6,$t6,48        # the digit as a character
        addiu $sp,$sp,-4
        bnez  $s2,digit
        sw    $t6,0($sp)        # in the delay slot
print:  lw    $a0,0($sp)
        addiu $sp,$sp,4
        beqz  $a0,printed
        nop
        jal   put
        nop
        b     print
        nop
printed:
        lw    $s2,0($sp)
        lw    $ra,4($sp)
        nop
        jr    $ra
        addiu $sp,$sp,8         # in the delay slot

# Prints the byte in $a0.
put:    li    $t0,0xbf000000
room:   lw    $t1,0($t0)
        nop
        andi  $t1,$t1,2
        beqz  $t1,room
        nop
        jr    $ra
        sw    $a0,8($t0)        # in the delay slot

        .org  0x80000180
fault:  b     fault
        nop

        .org  0x80001000
list:   .word -2147483648, 0, 1234567890
end:
