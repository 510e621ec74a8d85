# Divides 100 by 7 by subtracting as often as it goes, and exits with the quotient.
    li s0,100
    li s1,7
    li a0,0
again: blt s0,s1,done
    sub s0,s0,s1
    addi a0,a0,1
    j again
done: li a7,1
    ecall
    j .+0
