# Opens module 1, and exits with the cause why it is not opened, or with 0.
.node void
.node func 0
.globl main
.func main 1
    li a7,4
    li a0,1
    ecall
    mv a0,a1
    li a7,1
    ecall
    j .+0
.endfunc
