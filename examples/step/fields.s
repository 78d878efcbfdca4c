# Four words of a sensor, each with a reading of 12 bits, signed, in bits 8 to 19. The coprocessor
# takes the reading out of a word and adds its product with a weight to an accumulator.

        .macro  reading rd, rs1         # rd = bits 8 to 19 of rs1, with their sign
        .insn   r 0x0b, 1, 0, \rd, \rs1, x0
        .endm
        .macro  weigh rs1, rs2          # accumulator 0 += rs1 * rs2, both signed
        .insn   r 0x0b, 2, 0, x0, \rs1, \rs2
        .endm
        .macro  total rd                # rd = the low half of accumulator 0
        .insn   r 0x0b, 3, 0, \rd, x0, x0
        .endm

        addi    x10, x0, 0x40           # the words
        addi    x11, x10, 16            # behind the last one
        addi    x12, x0, 3              # the weight
next:   lw      x13, 0(x10)
        reading x14, x13
        weigh   x14, x12
        addi    x10, x10, 4
        bltu    x10, x11, next
        total   x15
        sw      x15, 0(x11)
        ecall
