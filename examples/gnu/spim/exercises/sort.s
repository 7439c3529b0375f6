# Sorts eight words by exchanging neighbours, and prints them.
        .data
words:  .word   42, -7, 19, 0, 1000, -2147483648, 19, 5
count:  .word   8

        .text
        .globl  main
main:
        lw      $s0, count
outer:
        addi    $s0, $s0, -1
        blez    $s0, print
        la      $t0, words
        move    $t1, $s0
inner:
        lw      $t2, 0($t0)
        lw      $t3, 4($t0)
        ble     $t2, $t3, sorted
        sw      $t3, 0($t0)
        sw      $t2, 4($t0)
sorted:
        addi    $t0, $t0, 4
        addi    $t1, $t1, -1
        bgtz    $t1, inner
        b       outer
print:
        la      $s1, words
        lw      $s0, count
each:
        lw      $a0, 0($s1)
        li      $v0, 1
        syscall
        li      $a0, 32
        li      $v0, 11
        syscall
        addi    $s1, $s1, 4
        addi    $s0, $s0, -1
        bnez    $s0, each
        li      $a0, 10
        li      $v0, 11
        syscall
        li      $v0, 10
        syscall
