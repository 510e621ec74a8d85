# What the checks have to know of plus60.c: its types, its functions and its indirect jumps. GNU as reads this after the
# compiler's output, so that the text ends where the function does.
    .text
    .set plus60_bytes, . - plus60

    .section .cfi_types,"",@progbits
    .word 2                     # two nodes
    .word 1, 2, 32, 1           # node 0: kind 1, two fields: an integer of 32 bits, signed
    .word 7, 2, 0, 0            # node 1: kind 7, two fields: a function that gives a node 0 and takes a node 0

    .section .cfi_records,"",@progbits
    .word 2, 1, 1               # version 2, one function, one indirect jump
    .word 0, plus60_bytes       # the function's place in the text and its length, in bytes
    .word 1, 1, 6               # its type is node 1, its address is taken, and its name has six bytes
    .ascii "plus60"
    .balign 4
    .word 2, 0                  # the first indirect jump: kind 2, a return, which has no fields
