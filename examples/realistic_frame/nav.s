# Sends a position on the bus, and waits for the next window.
start:  TRAP 5          # lock the bus
        NOP
        TRAP 6          # unlock the bus
        TRAP 1          # wait
        JMP  start
