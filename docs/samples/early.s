# Compares a secret of eight bytes with a guess, and leaves at the first byte that differs.
csrrwi x0, 0x7c0, 2    # cpuctrl: the timing of instructions is fixed
auipc x5, 0            # 0x00100084
lui x9, 0x00020        # the host's page
addi x10, x5, 56       # the end of the secret
next:
lbu x11, 48(x5)        # a byte of the secret
lbu x12, 56(x5)        # a byte of the guess
bne x11, x12, done
addi x5, x5, 1
addi x13, x5, 48
bne x13, x10, next
done:
addi x7, x0, 1
sw x7, 8(x9)           # ends the run
.word 0
# The secret, and the guess.
.word 0x72636573
.word 0x21217465
.word 0x72636573
.word 0x21217465
