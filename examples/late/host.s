# The host: opens a plug-in, and calls a function of it that no module has yet.
.node int 32 1
.node func 0 0
.globl _start
.func _start 1
    li a7,4
    li a0,1
    ecall
    li a0,7
    call plus60
    li a7,2
    ecall
    li a0,0
    li a7,1
    ecall
    j .+0
.endfunc
