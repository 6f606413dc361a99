# One step of a control law in each window, then wait for the next.
step:   ADD  r2,r2,r1
        TRAP 1          # wait
        JMP  step
