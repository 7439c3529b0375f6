# echoes what its console gets, and stores to one page after another
        lui   $1,0xbf00         # the devices
        lui   $2,0x8000
        lui   $6,0x8001         # behind the last page
loop:   lw    $3,0($1)          # CON_STAT
        addiu $2,$2,0x1000
        andi  $3,$3,1
        beq   $3,$0,touch
        sll   $0,$0,0
        lw    $4,4($1)          # CON_IN
        sw    $4,8($1)          # CON_OUT
touch:  bne   $2,$6,store
        sll   $0,$0,0
        lui   $2,0x8000
store:  b     loop
        sw    $4,0x800($2)
