# Computes for ever.
spin:   JMP  spin
