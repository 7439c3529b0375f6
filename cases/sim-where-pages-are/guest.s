        lui   $1,0xbf00
        addiu $2,$0,7
        addiu $5,$0,-1
        addiu $6,$0,-1
        sw    $2,24($1)         # BAL_GIVE: page 7
        lw    $3,20($1)         # BAL_COUNT
        lw    $7,20($1)         # BAL_COUNT again
        lui   $4,0x8000
        ori   $4,$4,0x7000
        lw    $5,0($4)          # page 7
        lw    $6,20($1)         # BAL_COUNT once more
