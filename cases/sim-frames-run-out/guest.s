        lui   $1,0xbf00
        sw    $2,24($1)         # BAL_GIVE
        lui   $4,0x8000
        ori   $4,$4,0x5000
        lw    $5,0($4)
