# Reads numbers, one a line, up to a 0, and prints their sum.
        .data
answer: .asciiz "The sum is "

        .text
        .globl  main
main:
        li      $t0, 0
next:
        li      $v0, 5                  # read a number
        syscall
        beqz    $v0, done
        add     $t0, $t0, $v0
        b       next
done:
        la      $a0, answer
        li      $v0, 4                  # print a text
        syscall
        move    $a0, $t0
        li      $v0, 1                  # print a number
        syscall
        li      $a0, '\n'
        li      $v0, 11                 # print a character
        syscall
        li      $v0, 10                 # end
        syscall
