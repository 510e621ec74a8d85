// Where a guest begins. It stands last among the modules of the start, so that `main` is there before it.
#include "cfi.h"

int main(int guest);

CFI_BY_NAME void start(int guest) { cfi_exit(main(guest)); }
