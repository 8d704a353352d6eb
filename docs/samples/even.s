# Compares a secret of eight bytes with a guess, and looks at every byte, whether or not one differs.
csrrwi x0, 0x7c0, 2    # cpuctrl: the timing of instructions is fixed
auipc x5, 0            # 0x00100084
lui x9, 0x00020        # the host's page
addi x10, x5, 64       # the end of the secret
addi x15, x0, 0        # the bits in which a byte differs
next:
lbu x11, 56(x5)        # a byte of the secret
lbu x12, 64(x5)        # a byte of the guess
xor x11, x11, x12
or x15, x15, x11
addi x5, x5, 1
addi x13, x5, 56
bne x13, x10, next
addi x7, x0, 1
sw x7, 8(x9)           # ends the run
# The secret, and the guess.
.word 0x72636573
.word 0x21217465
.word 0x72636573
.word 0x21217465
