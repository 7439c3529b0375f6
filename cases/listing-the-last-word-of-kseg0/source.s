.org 0x9ffffffc
eret
