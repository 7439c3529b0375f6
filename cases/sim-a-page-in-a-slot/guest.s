        lui   $4,0x8000
        ori   $4,$4,0x9000
        addiu $5,$0,0x77
        sw    $5,0($4)
        sll   $0,$0,0
        sll   $0,$0,0
        sll   $0,$0,0
        mfc0  $6,$9,0           # Count, which each step moves first: 8
        lw    $7,0($4)
        mfc0  $8,$9,0           # Count: 10
