# Asks for a service, then calls a function through a pointer, and exits.
.node void
.node func 0
.globl main
.func main 1
li a7,3
ecall
la t0,f
.kind call 1
jalr ra,0(t0)
li a7,1
ecall
j .+0
.endfunc
.func f 1 taken
ret
.endfunc
