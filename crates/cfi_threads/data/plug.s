.node void
.node func 0
.globl plug
.func plug 1 taken
ret
.endfunc
