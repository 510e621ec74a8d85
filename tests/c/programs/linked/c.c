#include "shared.h"
const char *const title = "three files";
int counter = 7;

__attribute__((weak)) int only_weak(int x) { return x + 3000; }

struct opaque {
    int n;
    struct opaque *next;
};

struct opaque *make(int n) {
    static struct opaque all[2];
    all[0].n = n;
    return all;
}

int look(const struct opaque *o) { return o->n; }

int each(struct opaque *o, int (*f)(struct opaque *, int), int n) {
    int s = 0;
    while (n--) s += f(o, n);
    return s;
}
