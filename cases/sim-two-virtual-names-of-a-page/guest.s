# Virtual pages 2 and 4 both lead to physical page 5: what is stored by one name is there by the other.
        addiu $1,$0,0x147       # page 5; may be written, valid, for all address spaces
        mtc0  $1,$2,0           # EntryLo0
        addiu $1,$0,1           # not valid
        mtc0  $1,$3,0           # EntryLo1
        addiu $1,$0,0x2000
        mtc0  $1,$10,0          # EntryHi
        mtc0  $0,$0,0           # Index
        tlbwi
        addiu $1,$0,0x4000
        mtc0  $1,$10,0
        addiu $1,$0,1
        mtc0  $1,$0,0
        tlbwi
        lui   $2,0x1111
        ori   $2,$2,0x1111
        sw    $2,0x2000($0)
        addiu $3,$0,0x22
        sb    $3,0x4000($0)
        addiu $3,$0,0x33
        sb    $3,0x2001($0)
        lw    $4,0x4000($0)
