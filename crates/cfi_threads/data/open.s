# Opens module 1, passes a quiescent point and exits.
.node void
.node func 0
.globl main
.func main 1
li a7,4
li a0,1
ecall
li a7,3
ecall
li a0,0
li a7,1
ecall
j .+0
.endfunc
