# Writes its outputs at once, and waits for the next window.
start:  TRAP 1          # wait
        JMP  start
