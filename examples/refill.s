# A TLB refill handler: virtual addresses below 80000000 are mapped by the TLB, whose entries the handler writes as they are
# wanted.
#
# Virtual page p is placed in physical page p modulo 8, plus 8. An entry is for a pair of pages, an even one and the odd one behind
# it. A load or a store whose pair has no entry enters the handler at 80000000; ERET goes back to it, and then it finds its entry.
# Register 26 is the handler's. All entries are zeros at first: these are entries of virtual pages 0 and 1 that aren't valid, so
# the program uses others.

        .entry start

        mfc0  $26,$8,0          # BadVAddr: the address that was wanted
        srl   $26,$26,13        # its pair of pages
        sll   $26,$26,7         # the number of the even page, where EntryLo has it
        andi  $26,$26,0x180     # modulo 8
        addiu $26,$26,0x207     # plus 8; may be written, valid, for all address spaces
        mtc0  $26,$2,0          # EntryLo0, the even page
        addiu $26,$26,0x40      # the next page
        mtc0  $26,$3,0          # EntryLo1, the odd page
        tlbwr                   # EntryHi has the pair of pages already
        eret

        .org  0x80000200
start:  addiu $8,$0,0x1234
        lui   $9,0x0040         # virtual page 400
        sw    $8,0($9)          # a refill
        sw    $8,0x1004($9)     # page 401: the same entry
        sw    $9,0x3ffc($9)     # page 403: a refill
        lui   $10,0x8000
        ori   $10,$10,0x8000    # physical page 8, at its address that isn't mapped
        lw    $2,0($10)
        lw    $3,0x1004($10)    # in physical page 9
        lw    $4,0x3ffc($10)    # in physical page 11
stop:   beq   $0,$0,stop
        sll   $0,$0,0
