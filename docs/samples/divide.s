# Divides 1000 by a secret.
csrrwi x0, 0x7c0, 0    # cpuctrl: 0 for the usual timing of instructions, 2 for fixed timing
auipc x5, 0            # 0x00100084
lw x11, 28(x5)         # the secret
addi x10, x0, 1000
divu x12, x10, x11
lui x9, 0x00020        # the host's page
addi x7, x0, 1
sw x7, 8(x9)           # ends the run
# The secret.
.word 7
