        lui   $1,0xbf00
        sw    $2,24($1)         # BAL_GIVE
        sll   $0,$0,0
