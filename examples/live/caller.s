# Calls f by a pointer, makes a quiescent point, and exits.
.node void
.node func 0
.globl main
.func main 1
    la t0,f
    .kind call 1
    jalr ra,0(t0)
    li a7,3
    ecall
    li a7,1
    ecall
    j .+0
.endfunc
.func f 1 taken
    ret
.endfunc
