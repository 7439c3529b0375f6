.org 0x80000002
eret
