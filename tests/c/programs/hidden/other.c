#include <cfi.h>

CFI_BY_NAME int counted(int n) { return n + 1; }
