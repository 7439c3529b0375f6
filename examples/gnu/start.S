# Where a machine of vmhost begins: the exceptions' entries, and what main needs.
        .set    noreorder

# A TLB refill enters 80000000, every other exception 80000180. Both loop in place, unless the program has a function `refill` or
# `exception` of its own. That may change registers 26 and 27 alone before it has kept others, and ends with ERET.
        .section .refill, "ax"
        .globl  refill
        .weak   refill
        j       refill
        nop
refill:
1:      b       1b
        nop

        .section .general, "ax"
        .globl  exception
        .weak   exception
        j       exception
        nop
exception:
1:      b       1b
        nop

        .text
        .globl  start
        .ent    start
start:
        lui     $29,%hi(stack)          # the stack grows down from here
        addiu   $29,$29,%lo(stack)
        addiu   $29,$29,-16             # 16 bytes for the arguments of main
        lui     $8,%hi(bss_start)
        addiu   $8,$8,%lo(bss_start)
        lui     $9,%hi(bss_end)
        addiu   $9,$9,%lo(bss_end)
clear:
        beq     $8,$9,call
        nop
        sw      $0,0($8)
        b       clear
        addiu   $8,$8,4
call:
        jal     main
        nop
stop:
        b       stop
        nop
        .end    start
