# A module to be loaded late: one function, to which the pointer of caller.s may lead too.
.node void
.node func 0
.globl extra
.func extra 1 taken
    ret
.endfunc
