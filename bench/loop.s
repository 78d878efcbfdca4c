# The loop that bench/raw times: it goes over a table of 16 words again and again and never ends, so a run ends by
# its budget. About half of its instructions are ALU operations, a quarter are loads and stores, and the rest are
# branches and jumps.
        .option norelax                 # no linker comes after the assembler
        .equ    TABLE, 128
        .equ    TABLE_END, TABLE + 64

        li      s1, 0                   # the number of the round
        li      s2, 0                   # a checksum
        li      s3, TABLE_END
pass:
        li      s0, TABLE               # the word of this round
round:
        lw      t0, 0(s0)
        add     t0, t0, s1
        xor     s2, s2, t0
        slli    t1, s2, 5
        srli    t2, s2, 27
        or      s2, t1, t2              # turned left by 5 bits
        beqz    s2, zero                # hardly ever taken
        sw      s2, 0(s0)
        lbu     t3, 1(s0)
        lh      t4, 2(s0)
        sub     t5, t3, t4
        bltz    t4, negative            # taken about every other time
        sb      t5, 3(s0)
        j       next
negative:
        srai    t4, t4, 3
        add     s2, s2, t4
zero:
        addi    s2, s2, 1
next:
        addi    s1, s1, 1
        addi    s0, s0, 4
        bltu    s0, s3, round           # taken 15 times of 16
        j       pass

        .org    TABLE
        .zero   TABLE_END - TABLE
