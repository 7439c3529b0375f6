# A function call with a stack: the factorial of 5 in register 2, by a function that calls itself.
#
# The argument is in register 4, the result in register 2, the return address in register 31; register 29 points to the stack,
# which grows down. Each call keeps its return address and its argument there.

        lui   $29,0x8001        # the stack ends at 80010000, the end of 16 pages
        addiu $4,$0,5
        jal   factorial
        sll   $0,$0,0           # does nothing, in the delay slot
stop:   beq   $0,$0,stop
        sll   $0,$0,0

factorial:
        beq   $4,$0,return      # 0! is 1
        addiu $2,$0,1           # in the delay slot
        addiu $29,$29,-8
        sw    $31,4($29)
        sw    $4,0($29)
        jal   factorial
        addiu $4,$4,-1          # in the delay slot: the argument is one less
        lw    $4,0($29)
        lw    $31,4($29)
        addiu $29,$29,8
        mul   $2,$2,$4          # n! is (n - 1)! times n
return: jr    $31
        sll   $0,$0,0

        .org  0x80000180        # where an exception would lead: the program has no handler, and stays here
fault:  beq   $0,$0,fault
        sll   $0,$0,0
