// A host that puts a text once for each of its plug-ins, each byte as the plug-in changes it.
#include "change.h"
#include <cfi.h>

// No pointer leads here, so `main` is not among the functions that `by` may lead to, though it is of their type.
CFI_BY_NAME int main(int guest) {
    for (int number = 0; number < 3; number++) {
        change *by = (change *)cfi_open(number, 0);
        if (!by) return 1;
        for (const char *at = "Hello, C!\n"; *at; at++) cfi_put(by(*at));
    }
    return guest;
}
