# Passes a quiescent point and exits.
.node void
.node func 0
.globl main
.func main 1
li a7,3
ecall
li a7,1
ecall
j .+0
.endfunc
