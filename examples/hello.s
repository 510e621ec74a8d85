# Puts one byte, H, and exits with 7.
    li a7,2
    li a0,72
    ecall
    li a7,1
    li a0,7
    ecall
    j .+0
