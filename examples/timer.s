# A timer interrupt every 50 instructions.
#
# Count goes up by 1 with each instruction. Where it reaches Compare, the timer's interrupt is raised, until Compare is written. An
# interrupt enters the handler at 80000180, and ERET goes back to the instruction before which it came, or to the branch where
# that is in a delay slot.

        .entry start

        .org  0x80000180
        addiu $16,$16,1         # how many interrupts there were
        mfc0  $26,$11,0         # Compare
        addiu $26,$26,50
        mtc0  $26,$11,0         # the next interrupt
        eret

        .org  0x80000200
start:  addiu $26,$0,50
        mtc0  $26,$11,0         # the first interrupt
        ori   $8,$0,0x8001      # the timer's bit of the interrupt mask, and the bit that enables interrupts
        mtc0  $8,$12,0          # Status
loop:   beq   $0,$0,loop
        addiu $2,$2,1           # how many turns there were
