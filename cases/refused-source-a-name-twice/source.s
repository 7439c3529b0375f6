x: eret
x: eret
