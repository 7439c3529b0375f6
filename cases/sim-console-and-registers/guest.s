        lui   $1,0xbf00
        lw    $2,4($1)          # CON_IN
        sw    $2,8($1)          # CON_OUT
        lw    $2,4($1)
        sw    $2,8($1)
        lw    $3,16($1)         # BAL_TARGET
