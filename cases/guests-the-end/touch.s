# touches one page after another
        lui   $1,0x8000
loop:   addiu $1,$1,0x1000
        beq   $0,$0,loop
        sw    $1,0($1)
