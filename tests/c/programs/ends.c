// Functions that do not return, and ends that cannot be reached.
#include <stdio.h>
#include <stdlib.h>

static _Noreturn void leave(int code) {
    printf("leaving with %d\n", code);
    exit(code);
}

static int checked(int n) {
    if (n > 2) leave(n);
    return n * 10;
}

static int covered(unsigned way) {
    switch (way & 3) {
    case 0: return checked(1);
    case 1: return checked(2);
    case 2: return checked(5);
    case 3: abort();
    }
    __builtin_unreachable();
}

int main(int guest) {
    void (*volatile out)(int) = leave;
    printf("%d %d\n", covered((unsigned)guest), covered(1));
    if (guest) out(9);
    return covered(2);
}
