# Prints a line by the console, and then loops in place.
#
# The devices have registers, words from the physical address 1F000000 on, which is bf000000 in kseg1. Bit 1 of the first,
# CON_STAT, says that the output has room; a store to the third, CON_OUT, appends the low byte to it.

        lui   $8,0xbf00         # the devices
        lui   $9,0x8000
next:   lbu   $10,0x100($9)     # a byte of the text
        beq   $10,$0,stop       # a zero ends it
        addiu $9,$9,1           # in the delay slot
wait:   lw    $11,0($8)         # CON_STAT
        andi  $11,$11,2
        beq   $11,$0,wait       # until the output has room
        sll   $0,$0,0           # does nothing, in the delay slot
        beq   $0,$0,next
        sw    $10,8($8)         # CON_OUT, in the delay slot
stop:   beq   $0,$0,stop
        sll   $0,$0,0

        .org  0x80000100
        .word 0x6c6c6548        # Hell
        .word 0x77202c6f        # o, w
        .word 0x646c726f        # orld
        .word 0x0000000a        # a line feed, and zeros

        .org  0x80000180        # where an exception would lead: the program has no handler, and stays here
fault:  beq   $0,$0,fault
        sll   $0,$0,0
