# Adds 3 + 2 + 1 in an accumulator of the coprocessor, and reads the sum. Behind the branch, which the core
# predicts not to be taken, lies an instruction of the coprocessor: it is dispatched, and killed, each time round.

        .macro  add_to_sum rs1          # accumulator 0 += rs1
        .insn   r 0x0b, 0, 0, x0, \rs1, x0
        .endm
        .macro  sum rd                  # rd = the low half of accumulator 0
        .insn   r 0x0b, 2, 0, \rd, x0, x0
        .endm

        addi    x1, x0, 3               # the count
next:   add_to_sum x1
        addi    x1, x1, -1
        bne     x1, x0, next
        sum     x5
        ecall
