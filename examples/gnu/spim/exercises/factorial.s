# Reads a number from 0 to 12 and prints its factorial, by recursion.
        .data
prompt: .asciiz "n? "
equals: .asciiz "! = "

        .text
        .globl  main
main:
        addi    $sp, $sp, -8
        sw      $ra, 4($sp)
        sw      $s0, 0($sp)
        la      $a0, prompt
        li      $v0, 4
        syscall
        li      $v0, 5
        syscall
        move    $s0, $v0
        move    $a0, $s0
        li      $v0, 1
        syscall
        la      $a0, equals
        li      $v0, 4
        syscall
        move    $a0, $s0
        jal     factorial
        move    $a0, $v0
        li      $v0, 1
        syscall
        li      $a0, 10
        li      $v0, 11
        syscall
        lw      $s0, 0($sp)
        lw      $ra, 4($sp)
        addi    $sp, $sp, 8
        jr      $ra

# $v0: the factorial of $a0
factorial:
        addi    $sp, $sp, -8
        sw      $ra, 4($sp)
        sw      $a0, 0($sp)
        slti    $t0, $a0, 1
        beq     $t0, $zero, more
        li      $v0, 1
        addi    $sp, $sp, 8
        jr      $ra
more:
        addi    $a0, $a0, -1
        jal     factorial
        lw      $a0, 0($sp)
        lw      $ra, 4($sp)
        addi    $sp, $sp, 8
        mul     $v0, $a0, $v0
        jr      $ra
