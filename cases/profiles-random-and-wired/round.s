# Wired is 1, and a TLBWR in each turn of four instructions, of as many turns as entries are not wired: each of these is written once
        mfc0  $4,$16,1          # Config1
        srl   $4,$4,25          # the number of the last entry
        lui   $2,0x0040
        sll   $5,$4,13
        addu  $5,$5,$2
        addiu $5,$5,-8192       # the last turn's pages
        addiu $1,$0,1
        mtc0  $1,$6,0           # Wired
next:   mtc0  $2,$10,0          # EntryHi
        tlbwr
        bne   $2,$5,next
        addiu $2,$2,8192        # the next two pages
