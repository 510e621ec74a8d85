# The host: calls the library, opens the plug-in, and calls it through a pointer.
.node int 32 1
.node func 0 0
.node void
.node func 2
.globl _start
.func _start 3
    li a0,0
    call sel
    li a7,2
    ecall
    li a0,1
    call choose
    li a7,2
    ecall
    li a7,4
    li a0,2
    ecall
    mv t0,a0
    li a0,7
    .kind call 1
    jalr ra,0(t0)
    li a7,2
    ecall
    li a0,0
    li a7,1
    ecall
    j .+0
.endfunc
