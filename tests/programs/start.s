# The start of every image: the machine begins at address 0 with all registers 0.
        .section .start, "ax"
        .globl  start
start:
        la      sp, stack_end           # the end of the image, see link.ld
        call    program
        sw      a0, result, t0          # the result stands in x10 and in memory
        fence                           # orders nothing on one machine; it is here so that it is run
        ecall

# It comes right after the start, so it has the same address in every image.
result:
        .word   0
