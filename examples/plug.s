# The plug-in: adds 60.
.node int 32 1
.node func 0 0
.globl plus60
.func plus60 1 taken
    addi a0,a0,60
    ret
.endfunc
