# Touches one page after another, from page 1 on: one step, and then three for each page.

        lui   $1,0x8000         # the page that was touched last: first that of this code
loop:   addiu $1,$1,0x1000      # the next page
        beq   $0,$0,loop
        sw    $1,0($1)          # in the delay slot: its first word
