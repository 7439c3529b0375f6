# Unaligned loads and stores: a word at an address that is no multiple of 4 is read by LWR and LWL, and written by SWR and SWL.
#
# LW and SW at such an address would raise an exception. LWR takes the word's low bytes, from its own address to the end of the
# aligned word, and LWL the high bytes, from the start of the next aligned word to its own address.

        lui   $8,0x8000
        lwr   $2,0x101($8)      # the word at 80000101: three low bytes,
        lwl   $2,0x104($8)      # and the high byte, at 80000104
        swr   $2,0x10a($8)      # to 8000010a: two low bytes,
        swl   $2,0x10d($8)      # and two high bytes, to 8000010d
        lw    $3,0x108($8)      # the aligned words that it is now in
        lw    $4,0x10c($8)
        lb    $5,0x107($8)      # a byte with its sign, and without
        lbu   $6,0x107($8)
        lh    $7,0x106($8)      # a half-word with its sign
stop:   beq   $0,$0,stop
        sll   $0,$0,0

        .org  0x80000100
        .byte 0x10
        .byte 0x21
        .byte 0x32
        .byte 0x43
        .byte 0x54
        .byte 0x65
        .byte 0x76
        .byte 0x87
        .space 8

        .org  0x80000180        # where an exception would lead: the program has no handler, and stays here
fault:  beq   $0,$0,fault
        sll   $0,$0,0
