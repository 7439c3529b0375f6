# A loop: adds 5, 4, 3, 2, 1 and 0 in register 2.
#
# The instruction behind a branch stands in its delay slot: it is executed before the branch is taken, and also where the branch
# isn't taken. So the counter goes down once more than the branch goes back.

        addiu $1,$0,5           # the counter
loop:   addu  $2,$2,$1          # the sum
        bne   $1,$0,loop
        addiu $1,$1,-1          # in the delay slot
