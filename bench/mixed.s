# A loop of loads, stores, arithmetic, a branch and an instruction of a coprocessor, which the budget ends.

        .macro  add_to_sum rs1          # accumulator 0 += rs1
        .insn   r 0x0b, 0, 0, x0, \rs1, x0
        .endm

        addi    x1, x0, 0x100           # a word of memory
        lui     x4, 0x100               # more rounds than the budget has cycles
next:   lw      x2, 0(x1)
        add_to_sum x2
        addi    x2, x2, 1
        sw      x2, 0(x1)
        addi    x4, x4, -1
        bne     x4, x0, next
        ecall
