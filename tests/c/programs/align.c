// stop: align
// A word at an odd address: C does not define the access, and here it stops the guest.
#include <stdint.h>

int main(int guest) {
    static char bytes[8];
    return (int)*(volatile uint32_t *)((uintptr_t)bytes | (uintptr_t)(guest + 1));
}
