# Stores 1 to 8 to the first words of pages 8 to 15, and adds them: 36, hexadecimal 24, in register 2.
        lui   $8,0x8000
        ori   $8,$8,0x8000      # page 8
        lui   $9,0x8001         # the end of page 15
        addiu $10,$0,1
store:  sw    $10,0($8)
        addiu $8,$8,4096
        bne   $8,$9,store
        addiu $10,$10,1         # in the delay slot
        lui   $8,0x8000
        ori   $8,$8,0x8000
add:    lw    $11,0($8)
        addiu $8,$8,4096
        bne   $8,$9,add
        addu  $2,$2,$11         # in the delay slot
stop:   beq   $0,$0,stop
        sll   $0,$0,0
