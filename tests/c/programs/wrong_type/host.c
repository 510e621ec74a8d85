// stop: halt
// A plug-in whose entry takes a parameter more than the host gives.
#include <cfi.h>

int main(int guest) {
    int (*e)(int) = (int (*)(int))cfi_open(0, 0);
    return e ? e(guest) : 1;
}
