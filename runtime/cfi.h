// The services of a guest. docs/GUIDE.md says what each does ("run FILE").
//
// On another machine than RISC-V the same names are those of native.c, so that a program can be tried there first.
#pragma once

enum { CFI_EXIT = 1, CFI_PUT = 2, CFI_QUIET = 3, CFI_OPEN = 4 };

// What a service answers: a0, and a1, in which an open that found nothing has its cause.
struct cfi_answer {
    long value, cause;
};

#ifdef __riscv
static inline struct cfi_answer cfi_service(long number, long argument) {
    register long a0 __asm__("a0") = argument;
    register long a1 __asm__("a1");
    register long a7 __asm__("a7") = number;
    __asm__ volatile("ecall" : "+r"(a0), "=r"(a1) : "r"(a7) : "memory");
    return (struct cfi_answer){a0, a1};
}
#else
struct cfi_answer cfi_service(long number, long argument);
#endif

// Ends the guest.
static inline _Noreturn void cfi_exit(int code) {
    cfi_service(CFI_EXIT, code);
    for (;;)
        ;
}

// Puts a byte, and says whether there was room for it.
static inline int cfi_put(int byte) { return (int)cfi_service(CFI_PUT, byte).value; }

// A quiescent point: whoever computes for long makes one now and then.
static inline void cfi_quiet(void) { cfi_service(CFI_QUIET, 0); }

// The first global function of the module of this number, which is loaded where it is not; or null, and the cause.
static inline void *cfi_open(long module, int *cause) {
    struct cfi_answer answer = cfi_service(CFI_OPEN, module);
    if (cause) *cause = answer.value ? 0 : (int)answer.cause;
    return (void *)answer.value;
}

// A function that other files call by its name alone: no pointer of theirs may lead to it. So the checks know; a
// pointer that leads there all the same halts the guest.
#define CFI_BY_NAME __attribute__((visibility("hidden")))
