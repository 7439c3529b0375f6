# Reads characters up to a full stop, and prints how many were letters; each letter is echoed as a capital.
        .data
total:  .asciiz "\nletters: "
newline: .asciiz "\n"

        .text
        .globl  main
main:
        li      $s0, 0
next:
        li      $v0, 12                 # read a character
        syscall
        beq     $v0, '.', done
        move    $t0, $v0
        blt     $t0, 'A', next
        ble     $t0, 'Z', letter
        blt     $t0, 'a', next
        bgt     $t0, 'z', next
        sub     $t0, $t0, 32
letter:
        addi    $s0, $s0, 1
        move    $a0, $t0
        li      $v0, 11
        syscall
        j       next
done:
        la      $a0, total
        li      $v0, 4
        syscall
        move    $a0, $s0
        li      $v0, 1
        syscall
        la      $a0, newline
        li      $v0, 4
        syscall
        li      $v0, 10
        syscall
