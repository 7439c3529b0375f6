# A parser of arithmetic, with the faults of one: it reads statements with `;` between them, and writes the lowest byte of each one's value.
#
#   statement: expression | NAME = expression
#   expression: term, and more behind + or -
#   term: factor, and more behind * or /
#   factor: digits | NAME | ( expression )
#
# A NAME is any byte from 40 on. Those above 7f have half-words in place of words, so every other one is at an address that is no multiple of 4; brackets
# may be nested as deep as there is input, down the stack into what the names above are; a sum may overflow, and a divisor of zero is a break. Where a byte
# doesn't fit, a ? is written and the byte is left out.

        .entry start

        .org  0x80000200
start:  lui   $26,0xbf00        # the devices
        lui   $29,0x8000
        ori   $29,$29,0x5800    # the stack
        lui   $28,0x8000
        ori   $28,$28,0x5000    # what the names are
        jal   next
        sll   $0,$0,0
state:  bltz  $8,stop           # nothing waits
        lui   $9,0x8000
        lw    $10,0x4000($9)    # how many statements there were
        addiu $10,$10,1
        jal   expr
        sw    $10,0x4000($9)
        sw    $2,8($26)
        addiu $9,$0,0x3b        # ;
        bltz  $8,stop
        sll   $0,$0,0
        beq   $8,$9,more
        addiu $9,$0,0x3f        # ?
        sw    $9,8($26)
more:   jal   next
        sll   $0,$0,0
        beq   $0,$0,state
        sll   $0,$0,0
stop:   beq   $0,$0,stop
        sll   $0,$0,0

# the next byte, in register 8; it is below zero where there is none
next:   jr    $31
        lw    $8,4($26)

# the value of an expression, in register 2
expr:   addiu $29,$29,-8
        sw    $31,0($29)
        jal   term
        sll   $0,$0,0
sums:   addiu $9,$0,0x2b        # +
        beq   $8,$9,plus
        addiu $9,$0,0x2d        # -
        beq   $8,$9,minus
        sll   $0,$0,0
        lw    $31,0($29)
        jr    $31
        addiu $29,$29,8
plus:   sw    $2,4($29)
        jal   next
        sll   $0,$0,0
        jal   term
        sll   $0,$0,0
        lw    $9,4($29)
        beq   $0,$0,sums
        add   $2,$9,$2
minus:  sw    $2,4($29)
        jal   next
        sll   $0,$0,0
        jal   term
        sll   $0,$0,0
        lw    $9,4($29)
        beq   $0,$0,sums
        sub   $2,$9,$2

term:   addiu $29,$29,-8
        sw    $31,0($29)
        jal   factor
        sll   $0,$0,0
prods:  addiu $9,$0,0x2a        # *
        beq   $8,$9,times
        addiu $9,$0,0x2f        # /
        beq   $8,$9,over
        sll   $0,$0,0
        lw    $31,0($29)
        jr    $31
        addiu $29,$29,8
times:  sw    $2,4($29)
        jal   next
        sll   $0,$0,0
        jal   factor
        sll   $0,$0,0
        lw    $9,4($29)
        mult  $9,$2
        beq   $0,$0,prods
        mflo  $2
over:   sw    $2,4($29)
        jal   next
        sll   $0,$0,0
        jal   factor
        sll   $0,$0,0
        lw    $9,4($29)
        bne   $2,$0,divide
        div   $9,$2
        break 7
divide: beq   $0,$0,prods
        mflo  $2

factor: addiu $9,$0,0x28        # (
        beq   $8,$9,open
        addiu $9,$8,-48
        sltiu $10,$9,10
        bne   $10,$0,digit
        addiu $2,$0,0
        slti  $10,$8,0x40
        beq   $10,$0,name
        sll   $0,$0,0
        jr    $31               # no factor at all is 0
        sll   $0,$0,0
digit:  sll   $10,$2,3
        sll   $2,$2,1
        addu  $2,$2,$10
        addu  $2,$2,$9
        lw    $8,4($26)
        addiu $9,$8,-48
        sltiu $10,$9,10
        bne   $10,$0,digit
        sll   $0,$0,0
        jr    $31
        sll   $0,$0,0
open:   addiu $29,$29,-4
        sw    $31,0($29)
        jal   next
        sll   $0,$0,0
        jal   expr
        sll   $0,$0,0
        addiu $9,$0,0x29        # )
        bne   $8,$9,unshut
        addiu $9,$0,0x3f        # ?
        lw    $31,0($29)
        addiu $29,$29,4
        beq   $0,$0,next
        sll   $0,$0,0
unshut: sw    $9,8($26)
        lw    $31,0($29)
        jr    $31
        addiu $29,$29,4
name:   andi  $9,$8,0x80
        bne   $9,$0,half
        sll   $10,$8,1
        sll   $10,$8,2
half:   addu  $10,$28,$10
        lw    $8,4($26)
        addiu $9,$0,0x3d        # =
        bne   $8,$9,value
        sll   $0,$0,0
        addiu $29,$29,-8
        sw    $31,0($29)
        sw    $10,4($29)
        jal   next
        sll   $0,$0,0
        jal   expr
        sll   $0,$0,0
        lw    $31,0($29)
        lw    $10,4($29)
        addiu $29,$29,8
        jr    $31
        sw    $2,0($10)
value:  jr    $31
        lw    $2,0($10)

# each exception ends here, and shows where it was
        .org  0x80000180
caught: mfc0  $27,$14,0         # EPC
        sw    $27,8($26)
        srl   $27,$27,8
        sw    $27,8($26)
hung:   beq   $0,$0,hung
        sll   $0,$0,0
