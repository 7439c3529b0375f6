        lui   $1,0xbf00
        addiu $2,$0,7
        sw    $2,24($1)         # BAL_GIVE: page 7
        lui   $3,0x8000
        ori   $3,$3,0x7000
        lw    $4,0($3)          # takes it back
