# Stores a word to each of its 16 pages in turn, and counts in register 2 how often it has. It never ends.

        lui   $3,0x8000
next:   addiu $1,$1,0x1000
        andi  $1,$1,0xf000
        addu  $4,$3,$1
        sw    $2,0x100($4)
        beq   $0,$0,next
        addiu $2,$2,1           # in the delay slot
