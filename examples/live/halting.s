# Calls by a pointer of a type that no function has whose address is taken.
.node void
.node func 0
.globl main
.func main 1
    .kind call 1
    jalr ra,0(t0)
    j .+0
.endfunc
