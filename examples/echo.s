# Writes each byte of the console's input back to its output, by an interrupt.
#
# IP2 (bit 10 of Cause) is raised while input waits, and enters the handler at 80000180 where bit 10 of Status (IM2) and bit 0 (IE)
# are set. A load of CON_IN takes the next byte, and answers ffffffff where there is none: a negative number. All of the input has
# room in the output. Registers 26 and 27 are the handler's.

        .entry start

        .org  0x80000180
        addiu $16,$16,1         # how many interrupts there were
        lui   $26,0xbf00        # the devices
next:   lw    $27,4($26)        # CON_IN
        bltz  $27,done
        sll   $0,$0,0           # does nothing, in the delay slot
        beq   $0,$0,next
        sw    $27,8($26)        # CON_OUT, in the delay slot
done:   eret

        .org  0x80000200
start:  ori   $8,$0,0x401       # IM2 and IE
        mtc0  $8,$12,0          # Status
loop:   beq   $0,$0,loop
        addiu $2,$2,1           # how many turns there were
