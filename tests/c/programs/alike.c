// Ends that look alike and are not of one type: they may not become one jump; nor may rows that look alike be called as
// one, which would link by another register.
#include <stdio.h>

struct one {
    int n;
};

struct two {
    int n;
};

static int of_one(struct one *p) { return p->n + 1; }

static int of_two(struct two *p) { return p->n * 2; }

static int of_none(void *p) { return p != 0; }

static int __attribute__((noinline))
choose(int way, void *p, int (*f)(struct one *), int (*g)(struct two *), int (*h)(void *)) {
    switch (way) {
    case 0: return f(p);
    case 1: return g(p);
    case 2: return h(p);
    }
    return -1;
}

union way {
    int (*one)(struct one *);
    int (*two)(struct two *);
};

// Both calls are of what stands in one place.
static int __attribute__((noinline)) either(int way, void *p, const union way *at) {
    if (way) return at->one(p);
    return at->two(p);
}

static int total;

static void __attribute__((noinline)) note(int n) { total = total * 31 + n; }

static void __attribute__((noinline)) row_of(int n) {
    note(n), note(n + 1), note(n + 2), note(n * 3), note(n), note(n + 1), note(n + 2), note(n * 3);
}

static void __attribute__((noinline)) row_for(int n) {
    note(n), note(n + 1), note(n + 2), note(n * 3), note(n), note(n + 1), note(n + 2), note(n * 3), note(7);
}

int main(int guest) {
    struct one a = {20 + guest};
    struct two b = {21};
    int (*volatile f)(struct one *) = of_one;
    int (*volatile g)(struct two *) = of_two;
    int (*volatile h)(void *) = of_none;
    printf("%d %d %d %d\n", choose(0, &a, f, g, h), choose(1, &b, f, g, h), choose(2, &a, f, g, h),
           choose(3, 0, f, g, h));
    union way one = {.one = of_one}, two = {.two = of_two};
    printf("%d %d\n", either(1, &a, &one), either(0, &b, &two));
    for (int i = 0; i < 3; i++) {
        row_of(i);
        row_for(i);
    }
    printf("%d\n", total);
    return 0;
}
