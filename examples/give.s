# Gives a page of memory to the balloon, and takes it back by reading it.
#
# A store of a page's number to BAL_GIVE gives the page: its bytes become zeros, and BAL_COUNT, the number of given pages, goes up.
# The first access to a given page takes it back. IP3 (bit 11 of Cause) is raised while BAL_COUNT differs from BAL_TARGET, the
# number of pages that the host asks for, which is 0 here. The handler leaves both as they are, and takes its own bit of Status,
# IM3, away: else it would be entered again and again.

        .entry start

        .org  0x80000180
        addiu $16,$16,1         # how many interrupts there were
        mfc0  $17,$13,0         # Cause
        lw    $18,0x10($8)      # BAL_TARGET
        lw    $19,0x14($8)      # BAL_COUNT
        mfc0  $26,$12,0         # Status
        xori  $26,$26,0x800     # without IM3
        mtc0  $26,$12,0
        eret

        .org  0x80000200
start:  lui   $8,0xbf00         # the devices
        lui   $9,0x8000
        ori   $9,$9,0x8000      # page 8
        addiu $11,$9,0x1000     # its end
        lui   $10,0x1234
        ori   $10,$10,0x5678
fill:   addiu $9,$9,4
        bne   $9,$11,fill
        sw    $10,-4($9)        # in the delay slot
        lw    $2,-4($9)         # the page's last word
        ori   $12,$0,0x801      # IM3 and IE
        mtc0  $12,$12,0         # Status
        addiu $13,$0,8
        sw    $13,0x18($8)      # BAL_GIVE: page 8, and an interrupt
        lw    $3,0x14($8)       # BAL_COUNT: one page
        lw    $4,-4($9)         # the page's last word again: zero, and the page is taken back
        lw    $5,0x14($8)       # BAL_COUNT: none
        mtc0  $12,$12,0         # IM3 again, and no interrupt, since the count is the target
stop:   beq   $0,$0,stop
        sll   $0,$0,0
