# The image beside the loop: the machine starts and stops, and no instruction retires.
        ecall
