# The first guest opens module 1 and calls it. The second one passes a quiescent point, and calls a function at home.
.node void
.node func 0
.globl main
.func main 1
li a7,4
li a0,1
ecall
mv t0,a0
.kind call 1
jalr ra,0(t0)
li a0,0
li a7,1
ecall
j .+0
.endfunc
.globl rest
.func rest 1
li a7,3
ecall
la t0,f
.kind call 1
jalr ra,0(t0)
li a7,1
ecall
j .+0
.endfunc
.func f 1 taken
ret
.endfunc
