# The sum of the first ten numbers, by a function, kept in memory.
        .set    noreorder
        .text
        .globl  start
start:
        lui     $29,%hi(stack_end)
        addiu   $29,$29,%lo(stack_end)
        jal     sum
        addiu   $4,$0,10
        lui     $8,%hi(result)
        sw      $2,%lo(result)($8)
        lw      $3,%lo(result)($8)
stop:
        b       stop
        nop

# $2: the sum of 1 to $4
sum:
        addu    $2,$0,$0
next:
        addu    $2,$2,$4
        addiu   $4,$4,-1
        bne     $4,$0,next
        nop
        jr      $31
        nop

        .data
        .word   0x11223344
        .bss
result:
        .space  4
        .space  256
stack_end:
