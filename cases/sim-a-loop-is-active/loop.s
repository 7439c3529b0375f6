# A loop that reads and writes no memory: its page is touched by fetches alone.
loop:   beq   $0,$0,loop
        sll   $0,$0,0
