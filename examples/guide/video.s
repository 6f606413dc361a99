# Packs pictures as long as it gets time, and asks for 30 ticks of slack once.
        LI   r1,30
        TRAP 7          # slack
pack:   ADDI r2,1
        JMP  pack
