# Reverses a text in place, and prints it.

        la    $a0,text
        jal   reverse
        nop
        la    $a0,text
        jal   print
        nop
stop:   b     stop
        nop

# Reverses the text at $a0: exchanges its first and last byte, and so on until both meet.
reverse:
        move  $t0,$a0           # the first byte
        move  $t1,$a0
find:   lbu   $t2,0($t1)
        nop
        bnez  $t2,find
        addiu $t1,$t1,1         # in the delay slot
        addiu $t1,$t1,-2        # the last byte before the zero
swap:   sltu  $t2,$t0,$t1
        beqz  $t2,done
        nop
        lbu   $t3,0($t0)
        lbu   $t4,0($t1)
        sb    $t4,0($t0)
        sb    $t3,0($t1)
        addiu $t0,$t0,1
        b     swap
        addiu $t1,$t1,-1        # in the delay slot
done:   jr    $ra
        nop

# Prints the text at $a0 by the console, whose registers are words from bf000000 on: bit 1 of the first says that the output has
# room, and a store to the third prints a byte.
print:  li    $t0,0xbf000000
char:   lbu   $t1,0($a0)
        nop
        beqz  $t1,end
        addiu $a0,$a0,1         # in the delay slot
room:   lw    $t2,0($t0)
        nop
        andi  $t2,$t2,2
        beqz  $t2,room
        nop
        b     char
        sw    $t1,8($t0)        # in the delay slot
end:    jr    $ra
        nop

        .org  0x80000180
fault:  b     fault
        nop

        .org  0x80001000
text:   .asciiz "stressed"
