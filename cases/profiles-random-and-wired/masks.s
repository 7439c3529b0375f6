# the bits of Index and Wired that can be written, and where Random is behind a write of Wired
        addiu $1,$0,-1
        mtc0  $1,$0,0           # Index
        mfc0  $2,$0,0
        mtc0  $1,$6,0           # Wired: Random is the last entry, and stays there
        mfc0  $3,$6,0
        mfc0  $4,$1,0           # Random
        mfc0  $5,$16,1          # Config1
        mtc0  $0,$6,0           # with Wired 0 it goes down from the last entry again
        mfc0  $6,$1,0
