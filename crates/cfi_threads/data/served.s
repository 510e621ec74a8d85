# Opens its own module as often as it may, passes a quiescent point, and then asks for what needs no loader: a service that
# is not there, a store and a load, two puts, and one open too many.
.node void
.node func 0
.globl main
.func main 1
li s0,1024
again:
li a7,4
li a0,0
ecall
addi s0,s0,-1
bne s0,x0,again
li a7,3
ecall
li a7,9
ecall
sw a0,-4(sp)
lw a0,-4(sp)
li a7,2
ecall
li a7,4
li a0,0
ecall
addi a0,a1,0
li a7,2
ecall
li a0,0
li a7,1
ecall
j .+0
.endfunc
