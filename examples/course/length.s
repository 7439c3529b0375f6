# The length of a text, without the zero that ends it: 13, in $v0.

        la    $a0,text
        jal   length
        nop
stop:   b     stop
        nop

# The length of the text at $a0, in $v0.
length: move  $v0,$a0
again:  lbu   $t0,0($v0)
        nop
        bnez  $t0,again
        addiu $v0,$v0,1         # in the delay slot: behind the zero in the end
        addiu $v0,$v0,-1
        jr    $ra
        subu  $v0,$v0,$a0       # in the delay slot

        .org  0x80000180
fault:  b     fault
        nop

        .org  0x80001000
text:   .asciiz "Hello, # you!"
