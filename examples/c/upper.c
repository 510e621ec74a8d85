// Small letters become large ones.
#include "change.h"

change upper;

int upper(int byte) { return byte >= 'a' && byte <= 'z' ? byte - 32 : byte; }
