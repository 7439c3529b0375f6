.word 0xffffffff
.word 0x46000000
.byte 0x7f
.byte -1
.byte 0
