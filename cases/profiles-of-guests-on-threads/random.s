# Random in the first step, and then a store to each page, until there is no frame for one
        mfc0  $1,$1,0
        lui   $2,0x8000
next:   sw    $2,256($2)         # (no two pages are equal)
        beq   $0,$0,next
        addiu $2,$2,4096
