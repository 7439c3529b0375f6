# Virtual pages 2 and 102, which are 256 apart, lead to physical pages 5 and 6.
        addiu $1,$0,0x147       # page 5; may be written, valid, for all address spaces
        mtc0  $1,$2,0           # EntryLo0
        addiu $1,$0,1           # not valid
        mtc0  $1,$3,0           # EntryLo1
        addiu $1,$0,0x2000
        mtc0  $1,$10,0          # EntryHi
        mtc0  $0,$0,0           # Index
        tlbwi
        addiu $1,$0,0x187       # page 6
        mtc0  $1,$2,0
        lui   $5,0x0010
        ori   $5,$5,0x2000
        mtc0  $5,$10,0
        addiu $1,$0,1
        mtc0  $1,$0,0
        tlbwi
        addiu $1,$0,0x55
        sw    $1,0x2000($0)
        addiu $1,$0,0x66
        sw    $1,0($5)
        lw    $6,0x2000($0)
        lw    $7,0($5)
        lw    $8,0x2000($0)
        lw    $9,0($5)
        lui   $10,0x8000
        ori   $10,$10,0x5000
        lw    $11,0($10)
        lw    $12,0x1000($10)
