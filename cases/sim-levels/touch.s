# Touches one page after another, from page 1 on: two steps, and then four for each page. While register 9 isn't zero it reads the target
# of its balloon instead, in five steps.

        lui   $1,0x8000         # the page that was touched last
        lui   $8,0xbf00         # the devices
loop:   bne   $9,$0,show
        addiu $1,$1,0x1000      # in the delay slot
        beq   $0,$0,loop
        sw    $1,0($1)          # in the delay slot: the first word of the page
show:   lw    $2,0x10($8)       # BAL_TARGET
        beq   $0,$0,loop
        addiu $1,$1,-4096       # in the delay slot
