// The services on an ordinary machine, so that a program can be tried there, with that machine's own library:
//
//     cc -Dmain=guest_main -Iruntime MINE.c runtime/native.c
//
// A program that opens modules says here which function each number is for.
#include "cfi.h"
#include <stdio.h>
#include <stdlib.h>
#undef main

int guest_main(int guest);

__attribute__((weak)) void *native_module(long number) {
    (void)number;
    return NULL;
}

struct cfi_answer cfi_service(long number, long argument) {
    struct cfi_answer answer = {argument, 0};
    switch (number) {
    case CFI_EXIT: exit((int)argument);
    case CFI_PUT:
        putchar((unsigned char)argument);
        answer.value = 1;
        break;
    case CFI_OPEN:
        answer.value = (long)native_module(argument);
        answer.cause = answer.value ? 0 : 1;
        break;
    case CFI_QUIET: break;
    default: answer.value = -1;
    }
    return answer;
}

int main(void) { cfi_exit(guest_main(0)); }
