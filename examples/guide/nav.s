# Writes a position into the table (mutex 1) and sends it on the bus (mutex 0), one hold inside the other.
        LI   r4,1
fix:    MOV  r1,r4
        TRAP 5          # lock the table
        LI   r1,0
        TRAP 5          # lock the bus
        ADDI r5,1
        TRAP 6          # unlock the bus
        MOV  r1,r4
        TRAP 6          # unlock the table
        TRAP 1          # wait
        JMP  fix
