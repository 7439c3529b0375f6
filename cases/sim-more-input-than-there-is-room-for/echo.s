# Writes each byte of the console's input to its output, in four steps each after the first.
        lui   $1,0xbf00         # the devices
loop:   lw    $2,4($1)          # CON_IN
        sw    $2,8($1)          # CON_OUT
        beq   $0,$0,loop
        sll   $0,$0,0
