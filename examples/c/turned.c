// Each letter becomes the one that stands 13 places from it.
#include "change.h"

change turned;

static int from(int first, int byte) {
    int place = byte - first;
    if (place < 0 || place >= 26) return byte;
    return first + (place < 13 ? place + 13 : place - 13);
}

int turned(int byte) { return from('a', from('A', byte)); }
