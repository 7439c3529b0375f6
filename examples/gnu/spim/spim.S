# What a program for SPIM needs on a machine of vmhost: a start that calls main, and the system calls 1, 4, 5, 8, 10, 11 and 12 by the
# console.
#
# A system call's number is in $v0, as in SPIM: 1 prints the number in $a0, 4 the text at $a0 up to its zero, 11 the byte in $a0; 5
# reads a line and leaves its number in $v0, 8 a line to $a0, with its line feed and a zero, of $a1 bytes at most, and 12 a byte, left in
# $v0; 10 ends. No other register changes, but $k0 and $k1. A call waits for input that isn't there, and for room of the output.
#
# The program has ended in the loop at `ended`, where main's return leads too. It stays at `unknown_call` after a call of another
# number, and at `uncaught` after any other exception: cause, epc and badva say which.
        .set    noreorder
        .set    noat

        .section .refill, "ax"
        j       uncaught
        nop

        .section .general, "ax"
        j       entered
        nop

        .text
        .globl  start
        .ent    start
start:
        lui     $sp,%hi(stack)          # the stack grows down from here
        addiu   $sp,$sp,%lo(stack)
        addiu   $sp,$sp,-16
        lui     $t0,%hi(bss_start)
        addiu   $t0,$t0,%lo(bss_start)
        lui     $t1,%hi(bss_end)
        addiu   $t1,$t1,%lo(bss_end)
clear:
        beq     $t0,$t1,call
        nop
        sw      $zero,0($t0)
        b       clear
        addiu   $t0,$t0,4
call:
        move    $a0,$zero               # no arguments
        move    $a1,$zero
        jal     main
        move    $a2,$zero
ended:
        b       ended
        nop
unknown_call:
        b       unknown_call
        nop
uncaught:
        b       uncaught
        nop

# An exception. What the calls change is kept in `kept`, but $v0.
entered:
        lui     $k0,%hi(kept)
        addiu   $k0,$k0,%lo(kept)
        mfc0    $k1,$13                 # Cause: bits 6 to 2 are 8 for a system call
        andi    $k1,$k1,0x7c
        xori    $k1,$k1,8<<2
        bne     $k1,$zero,uncaught
        nop
        sw      $t0,0($k0)
        sw      $t1,4($k0)
        sw      $t2,8($k0)
        sw      $t3,12($k0)
        sw      $a0,16($k0)
        sw      $a1,20($k0)
        sw      $ra,24($k0)
        mfhi    $t0
        mflo    $t1
        sw      $t0,28($k0)
        sw      $t1,32($k0)

        lui     $t0,%hi(calls)
        addiu   $t0,$t0,%lo(calls)
        sltiu   $t1,$v0,13
        beq     $t1,$zero,unknown_call
        sll     $t1,$v0,2
        addu    $t0,$t0,$t1
        lw      $t0,0($t0)
        jalr    $t0
        nop

        lw      $t0,28($k0)
        lw      $t1,32($k0)
        mthi    $t0
        mtlo    $t1
        lw      $t0,0($k0)
        lw      $t1,4($k0)
        lw      $t2,8($k0)
        lw      $t3,12($k0)
        lw      $a0,16($k0)
        lw      $a1,20($k0)
        lw      $ra,24($k0)
        mfc0    $k1,$14                 # EPC: on behind the SYSCALL
        addiu   $k1,$k1,4
        mtc0    $k1,$14
        eret

# The calls. Each may change $t0 to $t3, $a0, $a1, HI and LO; $k1 has its return where it calls others.

# Prints the byte in $a0.
print_char:
        lui     $t0,0xbf00
1:      lw      $t1,0($t0)              # bit 1: the output has room
        andi    $t1,$t1,2
        beq     $t1,$zero,1b
        andi    $t1,$a0,0xff
        jr      $ra
        sw      $t1,8($t0)

# Reads a byte to $v0.
read_char:
        lui     $t0,0xbf00
1:      lw      $t1,0($t0)              # bit 0: input waits
        andi    $t1,$t1,1
        beq     $t1,$zero,1b
        nop
        jr      $ra
        lw      $v0,4($t0)

# Prints the text at $a0.
print_string:
        move    $k1,$ra
        move    $a1,$a0
print_from:
        lbu     $a0,0($a1)
        beq     $a0,$zero,2f
        addiu   $a1,$a1,1
        jal     print_char
        nop
        b       print_from
        nop
2:      jr      $k1
        nop

# Prints the number in $a0, with its sign where it is below 0.
print_int:
        move    $k1,$ra
        bgez    $a0,1f
        move    $t2,$a0
        jal     print_char
        addiu   $a0,$zero,'-'
        subu    $t2,$zero,$t2           # as an unsigned number, so that the least one is right too
1:      lui     $a1,%hi(digits_end)
        addiu   $a1,$a1,%lo(digits_end)
        sb      $zero,0($a1)
2:      addiu   $t3,$zero,10
        divu    $zero,$t2,$t3
        mflo    $t2
        mfhi    $t3
        addiu   $t3,$t3,'0'
        addiu   $a1,$a1,-1
        bne     $t2,$zero,2b
        sb      $t3,0($a1)
        b       print_from              # the text at $a1
        nop

# Reads a line, and leaves the number with which it begins in $v0, after blanks and a sign; 0 where it begins with none.
read_int:
        move    $k1,$ra
        move    $t2,$zero               # the number
        move    $a0,$zero               # 1 where it is below 0
1:      jal     read_char               # blanks and tabs
        nop
        addiu   $t3,$zero,' '
        beq     $v0,$t3,1b
        addiu   $t3,$zero,9
        beq     $v0,$t3,1b
        addiu   $t3,$zero,'+'
        beq     $v0,$t3,2f
        addiu   $t3,$zero,'-'
        bne     $v0,$t3,3f
        nop
        addiu   $a0,$zero,1
2:      jal     read_char
        nop
3:      addiu   $t3,$v0,-'0'            # digits
        sltiu   $t1,$t3,10
        beq     $t1,$zero,4f
        sll     $t1,$t2,3               # ten times as much
        addu    $t1,$t1,$t2
        addu    $t1,$t1,$t2
        b       2b
        addu    $t2,$t1,$t3
4:      addiu   $t3,$zero,10            # to the end of the line
        beq     $v0,$t3,5f
        nop
        jal     read_char
        nop
        b       4b
        nop
5:      beq     $a0,$zero,6f
        move    $v0,$t2
        subu    $v0,$zero,$t2
6:      jr      $k1
        nop

# Reads a line to $a0, with its line feed and a zero behind it: at most $a1 bytes with the zero. $v0 stays.
read_string:
        move    $k1,$ra
        move    $t3,$v0
        blez    $a1,3f
        nop
1:      addiu   $a1,$a1,-1
        beq     $a1,$zero,2f
        nop
        jal     read_char
        nop
        sb      $v0,0($a0)
        addiu   $a0,$a0,1
        addiu   $t2,$zero,10
        bne     $v0,$t2,1b
        nop
2:      sb      $zero,0($a0)
3:      jr      $k1
        move    $v0,$t3
        .end    start

        .section .rodata
        .align  2
calls:  .word   unknown_call, print_int, unknown_call, unknown_call, print_string, read_int, unknown_call, unknown_call
        .word   read_string, unknown_call, ended, print_char, read_char

        .bss
        .align  2
kept:   .space  36
        .space  12
digits_end:
        .space  4
