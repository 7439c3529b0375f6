# Reads Cause (register 13 of coprocessor 0) with interrupts of software, of the lines and of the timer pending. None is enabled.

        lui   $1,0xbf00         # the devices
        ori   $3,$0,0x300
        mtc0  $3,$13,0          # IP1 and IP0 of software
        mfc0  $4,$13,0
        lw    $5,4($1)          # CON_IN
        mfc0  $6,$13,0
        addiu $7,$0,5
        sw    $7,0x18($1)       # BAL_GIVE: page 5
        mfc0  $8,$13,0
        addiu $10,$0,13
        mtc0  $10,$11,0         # Compare, to which Count comes at the 13th step
        mfc0  $11,$13,0
        mfc0  $12,$13,0
