.org 0x80001ffd
.space 3
.org 0x80000000
.entry a
a: sll $0,$0,0