eret
addu $1,$2