# Puts the letters from A to Z with a loop, and exits with 0.
    li a7,2
    li s0,65
    li s1,91
next: mv a0,s0
    ecall
    addi s0,s0,1
    bne s0,s1,next
    li a7,1
    li a0,0
    ecall
    j .+0
