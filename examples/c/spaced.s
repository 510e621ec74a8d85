# A plug-in in assembly, of the type of examples/c/change.h: `int (int)` has the number 329620. Letters become spaces.
.node real 329620
.node func 0
.globl spaced
.func spaced 1 taken
    li t0,64
    blt a0,t0,kept
    li a0,32
kept: ret
.endfunc
