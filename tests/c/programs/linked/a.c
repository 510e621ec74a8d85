// Several translation units, linked: extern tables, weak, static and extern names, an alias, a type that one file
// knows.
#include "shared.h"

__attribute__((weak)) int weak_one(int x) { return x + 1000; }

__attribute__((weak)) int only_weak(int x) { return x + 2000; }

static int helper(int x) { return x + 1; }

static int seen(struct opaque *o, int k) { return look(o) * k; }

int main(int guest) {
    printf("%s %d\n", title, counter);
    hooks[3] = helper;
    for (int i = 0; i < 4; i++) printf("%d ", hooks[i](i + guest));
    printf("%d %d %d %d\n", weak_one(1), only_weak(1), other_name(4), missing != 0);
    int (*volatile p)(int) = weak_one;
    struct opaque *o = make(5);
    printf("%d %d %d\n", p(2), each(o, seen, 4), counter);
    return twice(21);
}
