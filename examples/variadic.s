# A callback: a pointer to functions that take a character and then whatever they take. `one` takes the character alone,
# `later` how many letters later to go; `other` takes nothing, so the pointer does not lead there.
.node int 32 1
.node func 0 0
.node func 0 0 0
.node varfunc 0 0
.node void
.node func 4
.globl _start
.func _start 5
    li a0,65
    la t0,one
    .kind call 3
    jalr ra,0(t0)
    li a7,2
    ecall
    li a0,65
    li a1,3
    la t0,later
    .kind call 3
    jalr ra,0(t0)
    li a7,2
    ecall
    li a0,0
    li a7,1
    ecall
    j .+0
.endfunc
.func one 1 taken
    ret
.endfunc
.func later 2 taken
    add a0,a0,a1
    ret
.endfunc
.func other 5 taken
    ret
.endfunc
