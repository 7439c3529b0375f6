# Reads a line and prints it backwards.
        .data
line:   .space  64

        .text
        .globl  main
main:
        la      $a0, line
        li      $a1, 64
        li      $v0, 8                  # read a line
        syscall
        la      $t0, line               # its first byte
        la      $t1, line
find:                                   # its line feed, or its end
        lb      $t2, 0($t1)
        beqz    $t2, found
        beq     $t2, 10, found
        addi    $t1, $t1, 1
        j       find
found:
        sub     $t1, $t1, 1             # its last byte
swap:
        bge     $t0, $t1, print
        lb      $t2, 0($t0)
        lb      $t3, 0($t1)
        sb      $t3, 0($t0)
        sb      $t2, 0($t1)
        addi    $t0, $t0, 1
        addi    $t1, $t1, -1
        j       swap
print:
        la      $a0, line
        li      $v0, 4
        syscall
        li      $v0, 10
        syscall
