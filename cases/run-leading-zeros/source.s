lui $1,0x1
clz $2,$1
