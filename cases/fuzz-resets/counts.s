# Shows what there is of the machine, a word after another, and then counts: it changes each thing that was shown. So it goes on for ever, and what a
# reset leaves behind of a run stands among the words of the next one.
#
# Each time round it takes two bytes of input. The first is shown; the second says how many of 256 NOPs are skipped between the words and the counting,
# so that a run of so many steps ends where the second byte has it: in the handler, in a delay slot, between LL and SC.
#
# Register 26 has the address of the devices and 28 that of page 8, 2 the word that is shown, 27 is for the moment. The others are counted.

        .entry start

        .org  0x80000180
        mfc0  $27,$13,0         # Cause
        andi  $27,$27,0x7c      # the exception's code
        beq   $27,$0,timer
        lw    $27,-28672($28)   # how many exceptions there were
        addiu $27,$27,1
        sw    $27,-28672($28)
        mfc0  $27,$14,0         # EPC
        addiu $27,$27,4         # goes on behind the instruction, or where it is in a delay slot at it
        mtc0  $27,$14,0
        eret
timer:  addiu $27,$27,0x100     # and how many interrupts
        sw    $27,-28672($28)
        mtc0  $0,$11,0          # Compare
        eret

# shows register 2, the highest byte first
        .org  0x800001c0
put:    srl   $27,$2,24
        sw    $27,8($26)
        srl   $27,$2,16
        sw    $27,8($26)
        srl   $27,$2,8
        sw    $27,8($26)
        jr    $31
        sw    $2,8($26)

        .org  0x800001e0
patch:  jr    $31
        addiu $2,$0,1           # at 800001e4; the 1 is counted

        .org  0x80000200
start:  or    $2,$2,$26
        or    $2,$2,$27
        or    $2,$2,$28
        or    $2,$2,$31
        lui   $26,0xbf00
        lui   $28,0x8000
        jal   put               # the registers that are used here
        ori   $28,$28,0x8000
        addu  $2,$3,$4
        addu  $2,$2,$5
        addu  $2,$2,$6
        addu  $2,$2,$7
        addu  $2,$2,$8
        addu  $2,$2,$9
        addu  $2,$2,$10
        addu  $2,$2,$11
        addu  $2,$2,$12
        addu  $2,$2,$13
        addu  $2,$2,$14
        addu  $2,$2,$15
        addu  $2,$2,$16
        addu  $2,$2,$17
        addu  $2,$2,$18
        addu  $2,$2,$19
        addu  $2,$2,$20
        addu  $2,$2,$21
        addu  $2,$2,$22
        addu  $2,$2,$23
        addu  $2,$2,$24
        addu  $2,$2,$25
        addu  $2,$2,$29
        jal   put               # the sum of the others
        addu  $2,$2,$30
        jal   put
        mfhi  $2
        jal   put
        mflo  $2
        addiu $2,$0,0xabc
        sc    $2,-28668($28)
        jal   put               # whether LLbit was set
        sll   $0,$0,0
        jal   put
        lw    $2,-28672($28)    # in page 1
        jal   put
        lw    $2,-28668($28)
        jal   put
        lw    $2,-28664($28)
        jal   put
        lw    $2,-16384($28)    # in page 4
        jal   put
        lw    $2,-12288($28)    # in page 5
        jal   put
        lw    $2,-8192($28)     # in page 6
        jal   put
        lw    $2,-8188($28)
        jal   put
        lw    $2,12288($28)     # in page 11
        jal   put
        lw    $2,32764($28)     # the last of page 15
        jal   put
        lw    $2,0x14($26)      # BAL_COUNT
        jal   put
        lw    $2,0($28)         # in page 8, which is taken back if it is given
        jal   put
        lw    $2,4096($28)      # in page 9
        jal   put
        lw    $2,8192($28)      # in page 10
        jal   put
        lw    $2,0x14($26)      # BAL_COUNT
        jal   patch
        sll   $0,$0,0
        jal   put               # what the instruction gives that is counted
        sll   $0,$0,0
        jal   put
        lw    $2,0($26)         # CON_STAT
        jal   put
        lw    $2,4($26)         # CON_IN
        jal   put
        mfc0  $2,$0,0           # Index
        jal   put
        mfc0  $2,$1,0           # Random
        jal   put
        mfc0  $2,$2,0           # EntryLo0
        jal   put
        mfc0  $2,$3,0           # EntryLo1
        jal   put
        mfc0  $2,$4,0           # Context
        jal   put
        mfc0  $2,$6,0           # Wired
        jal   put
        mfc0  $2,$8,0           # BadVAddr
        jal   put
        mfc0  $2,$9,0           # Count
        jal   put
        mfc0  $2,$10,0          # EntryHi
        jal   put
        mfc0  $2,$11,0          # Compare
        jal   put
        mfc0  $2,$12,0          # Status
        jal   put
        mfc0  $2,$13,0          # Cause
        jal   put
        mfc0  $2,$14,0          # EPC
        jal   put
        mfc0  $2,$30,0          # ErrorEPC
        mtc0  $0,$0,0           # entry 0 of the TLB
        tlbr
        jal   put
        mfc0  $2,$10,0
        jal   put
        mfc0  $2,$2,0
        jal   put
        mfc0  $2,$3,0
        addiu $2,$0,5           # entry 5
        mtc0  $2,$0,0
        tlbr
        jal   put
        mfc0  $2,$10,0
        jal   put
        mfc0  $2,$2,0
        jal   put
        mfc0  $2,$3,0
        addiu $2,$0,15          # entry 15
        mtc0  $2,$0,0
        tlbr
        jal   put
        mfc0  $2,$10,0
        jal   put
        mfc0  $2,$2,0
        jal   put
        mfc0  $2,$3,0
        addiu $2,$0,31          # the last entry
        mtc0  $2,$0,0
        tlbr
        jal   put
        mfc0  $2,$10,0
        jal   put
        mfc0  $2,$2,0
        jal   put
        mfc0  $2,$3,0
        lw    $27,4($26)        # how many NOPs are skipped
        bgez  $27,skip
        sll   $27,$27,2
        addiu $27,$0,0          # where no byte is left, none
skip:   lui   $2,0x8000
        ori   $2,$2,0x800
        addu  $2,$2,$27
        jr    $2
        sll   $0,$0,0

# from 80000800 on are 256 words of zeros, which are NOPs

        .org  0x80000c00
count:  addiu $3,$3,3
        addiu $4,$4,4
        addiu $5,$5,5
        addiu $6,$6,6
        addiu $7,$7,7
        addiu $8,$8,8
        addiu $9,$9,9
        addiu $10,$10,10
        addiu $11,$11,11
        addiu $12,$12,12
        addiu $13,$13,13
        addiu $14,$14,14
        addiu $15,$15,15
        addiu $16,$16,16
        addiu $17,$17,17
        addiu $18,$18,18
        addiu $19,$19,19
        addiu $20,$20,20
        addiu $21,$21,21
        addiu $22,$22,22
        addiu $23,$23,23
        addiu $24,$24,24
        addiu $25,$25,25
        addiu $29,$29,29
        addiu $30,$30,30
        mfhi  $27
        addiu $27,$27,3
        mthi  $27
        mflo  $27
        addiu $27,$27,5
        mtlo  $27
        lw    $27,-28664($28)   # in page 1
        addiu $27,$27,1
        sw    $27,-28664($28)
        lbu   $27,-16383($28)   # a byte in page 4
        addiu $27,$27,1
        sb    $27,-16383($28)
        lhu   $27,-12286($28)   # a half-word in page 5
        addiu $27,$27,1
        sh    $27,-12286($28)
        lwr   $27,-8189($28)    # the word at 80006003, which lies in two
        lwl   $27,-8186($28)
        ori   $2,$0,0xffff
        addu  $27,$27,$2
        swr   $27,-8189($28)
        swl   $27,-8186($28)
        lw    $27,32764($28)    # in page 15
        addiu $27,$27,1
        sw    $27,32764($28)
        lw    $27,-32284($28)   # the instruction behind patch
        addiu $27,$27,1
        sw    $27,-32284($28)
        sw    $27,0($28)        # page 8 is written, and then given
        addiu $27,$0,8
        sw    $27,0x18($26)     # BAL_GIVE
        addiu $27,$0,9          # page 9 is given as it is
        sw    $27,0x18($26)
        addiu $27,$0,10         # page 10 is given, and taken back
        sw    $27,0x18($26)
        sw    $27,0x1c($26)     # BAL_TAKE
        addiu $27,$0,12         # page 12 is given and stays so
        sw    $27,0x18($26)
        syscall 0
        lw    $27,-28671($28)   # no multiple of 4: an address error
        beq   $0,$0,behind
        syscall 0               # in a delay slot, and once more when the handler goes on at it
        addiu $3,$3,64
behind: beq   $0,$0,linked
        addiu $4,$4,64
        addiu $5,$5,64
linked: ll    $27,-28668($28)
        addiu $27,$27,0x111
        sc    $27,-28668($28)
        lui   $27,0x40          # entry 0: 00400000 is in page 11
        mtc0  $27,$10,0         # EntryHi
        addiu $27,$0,0x2c7
        mtc0  $27,$2,0          # EntryLo0
        addiu $27,$0,0x347      # 00401000 is in page 13
        mtc0  $27,$3,0          # EntryLo1
        mtc0  $0,$0,0           # Index
        tlbwi
        lui   $2,0x40
        lw    $27,0($2)
        addiu $27,$27,1
        sw    $27,0($2)
        ori   $27,$2,0x2001     # entry 5: of address space 1
        mtc0  $27,$10,0
        addiu $27,$0,5
        mtc0  $27,$0,0
        tlbwi
        ori   $27,$2,0x4002     # entry 15
        mtc0  $27,$10,0
        addiu $27,$0,15
        mtc0  $27,$0,0
        tlbwi
        ori   $27,$2,0x6003     # the last entry
        mtc0  $27,$10,0
        addiu $27,$0,31
        mtc0  $27,$0,0
        tlbwi
        addiu $27,$0,6
        mtc0  $27,$6,0          # Wired
        lui   $27,0x4080
        mtc0  $27,$10,0
        mtc0  $27,$4,0          # Context
        tlbwr
        mtc0  $28,$30,0         # ErrorEPC
        ori   $27,$0,0x8001
        mtc0  $27,$12,0         # Status: the timer's bit of the mask, and the one that enables interrupts
        mfc0  $27,$9,0          # Count
        addiu $27,$27,10
        mtc0  $27,$11,0         # Compare: an interrupt eight instructions on, in a delay slot
        beq   $0,$0,first
        addiu $6,$6,64
        addiu $7,$7,64
first:  beq   $0,$0,second
        addiu $8,$8,64
        addiu $9,$9,64
second: beq   $0,$0,third
        addiu $10,$10,64
        addiu $11,$11,64
third:  beq   $0,$0,fourth
        addiu $12,$12,64
        addiu $13,$13,64
fourth: ori   $27,$0,0x8000
        mtc0  $27,$12,0         # no more interrupts
        mfc0  $27,$9,0
        addiu $27,$27,4
        mtc0  $27,$11,0         # one is pending soon, all the same
        ll    $27,-28668($28)   # LLbit stays set
again:  beq   $0,$0,start
        sll   $0,$0,0

        .org  0x80001000
        .word 0x00001000        # exceptions and interrupts
        .word 0x00002222
        .word 0x00000007
        .org  0x80006000
        .word 0x66666666
        .word 0x66666666
        .org  0x80008000
        .word 0x88888888
        .org  0x80009000
        .word 0x99999999
        .org  0x8000a000
        .word 0xaaaaaaaa
