# Page 5 is loaded from, stored to and loaded from again.
        lui   $4,0x8000
        ori   $4,$4,0x5000
        addiu $5,$0,0x22
        lw    $6,0($4)
        sb    $5,1($4)
        lw    $7,0($4)
        sb    $5,4($4)
        lw    $8,4($4)
        lw    $9,0($4)
        sb    $5,2($4)
        lw    $10,0($4)
