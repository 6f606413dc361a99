# Makes a child at level 2 with a quota of 5 that begins at `write` with 7 in r1, and waits from then on.
        LI   r1,2
        LI   r2,5
        LI   r3,write
        LI   r4,7
        TRAP 3          # create
rest:   TRAP 1          # wait
        JMP  rest
write:  TRAP 8          # put
        ADDI r1,1
        JMP  write
