# Reads how many, and prints the first Fibonacci numbers, from 0 and 1 on, in one line.
        .text
        .globl  main
main:
        li      $v0, 5
        syscall
        move    $t0, $v0                # how many are left
        li      $t1, 0
        li      $t2, 1
loop:
        blez    $t0, end
        move    $a0, $t1
        li      $v0, 1
        syscall
        li      $a0, ' '
        li      $v0, 11
        syscall
        addu    $t3, $t1, $t2
        move    $t1, $t2
        move    $t2, $t3
        sub     $t0, $t0, 1
        b       loop
end:
        li      $a0, 10
        li      $v0, 11
        syscall
        li      $v0, 10
        syscall
