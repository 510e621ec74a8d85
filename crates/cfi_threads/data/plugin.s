# Passes a quiescent point, and returns.
.node void
.node func 0
.globl plug
.func plug 1 taken
li a7,3
ecall
ret
.endfunc
