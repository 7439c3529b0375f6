addiu $1,$0,7
addiu $2,$0,-3
addu $3,$2,$1
subu $4,$1,$2
nor $5,$1,$2
sra $6,$2,1
srl $7,$2,28
