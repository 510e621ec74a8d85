# A library: two functions that others may point to, one that picks among them, and one with a switch.
.node int 32 1
.node func 0 0
.func twice 1 taken
    add a0,a0,a0
    ret
.endfunc
.func incr 1 taken
    addi a0,a0,1
    ret
.endfunc
.globl sel
.func sel 1
    la t0,table
    slli t1,a0,2
    add t0,t0,t1
    lw t0,0(t0)
    li a0,5
    .kind tail 1
    jr t0
.endfunc
.globl choose
.func choose 1
    la t0,jt
    slli t1,a0,2
    add t0,t0,t1
    lw t0,0(t0)
    .kind switch L0 L1
    jr t0
L0: li a0,65
    ret
L1: li a0,66
    ret
.endfunc
.data
table: .word twice
    .word incr
jt: .word L0
    .word L1
