# Stores 1 to the host's second register, which ends the run.
lui x6, 0x00020
addi x7, x0, 1
sw x7, 8(x6)
