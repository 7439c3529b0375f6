# Stores a word to page 1, and register 10 behind it. Two guests of this image have the same two pages, until register 10 of one is
# another.
        lui   $8,0x8000
        ori   $8,$8,0x1000      # page 1
        ori   $9,$0,0x1234
        sw    $9,0($8)
        sw    $10,4($8)
        lw    $11,4($8)
stop:   beq   $0,$0,stop
        sll   $0,$0,0
