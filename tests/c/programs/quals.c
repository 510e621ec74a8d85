// Types with many parts: qualifiers, chains of typedef, functions that take and give functions, arrays as parameters.
#include <stdbool.h>
#include <stdio.h>
#include <string.h>

typedef int number;
typedef number count;
typedef const count fixed;
typedef volatile fixed *watched;
typedef int (*unary)(int);
typedef unary (*maker)(int);
typedef maker (*maker2)(unary, maker);
typedef int (*(*chooser)(int, unary, unary))(int);
typedef void sink(void *restrict, const char *const, unsigned);

struct s {
    int a;
};

struct t {
    struct s *s;
};

union u {
    int i;
};

enum e { A = 1, B = -1 };

static int inc(int x) { return x + 1; }

static int dec(int x) { return x - 1; }

static int neg(int x) { return -x; }

static unary make(int k) {
    static const unary all[] = {inc, dec, neg};
    return all[k % 3];
}

static unary rev(int k) { return make(2 - k % 3); }

static maker pick(unary f, maker m) { return f(1) > 1 ? m : rev; }

static int (*choose(int k, unary a, unary b))(int) { return k ? a : b; }

static void hold(void *restrict at, const char *const s, unsigned n) { memcpy(at, s, n); }

static int watch(watched w) { return *w + *w; }

static int sums(const int *const restrict a, int n) {
    int s = 0;
    for (int i = 0; i < n; i++) s += a[i];
    return s;
}

static int rows(const int a[][3], const int n) {
    int s = 0;
    for (int i = 0; i < n; i++) s += a[i][0] * a[i][2];
    return s;
}

static int row(int (*a)[3]) { return (*a)[1]; }

// Many parts that repeat: the same types in other places.
static int many(struct s *a, struct s *b, struct s **c, struct t *d, const struct s *e,
                struct s *(*f)(struct s *, struct t *), const struct s *(*g)(const struct s *), unary h, unary *i) {
    return a->a + b->a + (*c)->a + d->s->a + e->a + f(a, d)->a + g(e)->a + h(1) + i[1](1);
}

static struct s *first(struct s *a, struct t *b) {
    (void)b;
    return a;
}

static struct s *second(struct s *a, struct t *b) {
    (void)a;
    return b->s;
}

static const struct s *same(const struct s *a) { return a; }

static int apply(int (*f)(unary, int), unary g, int x) { return f(g, x); }

static int thrice(unary f, int x) { return f(f(f(x))); }

static int nest(int (*f)(int (*)(int (*)(int), int), unary, int), int x) { return f(thrice, dec, x); }

static int no_args(void) { return 5; }

static int many_args(int a, int b, int c, int d, int e, int f, int g, int h, int i, int j) {
    return a - b + c - d + e - f + g - h + i - j;
}

static enum e flip(enum e x, union u y, struct s z) { return x == A && y.i == z.a ? B : A; }

static void pass(char *a, signed char *b, unsigned char *c, const volatile short *d, long *e, unsigned long *f,
                 long long *g, bool *h, void **i, const void *j) {
    *a = 'a';
    *b = -1;
    *c = 255;
    *e = *d;
    *f = 2;
    *g = 3;
    *h = true;
    *i = (void *)j;
}

int main(int guest) {
    maker makers[] = {make, rev};
    maker2 volatile p = pick;
    chooser volatile c = choose;
    for (int k = 0; k < 3; k++)
        for (int m = 0; m < 2; m++) printf("%d ", makers[m](k)(10));
    printf("%d %d %d %d\n", p(inc, make)(1)(5), p(dec, make)(0)(5), c(1, inc, dec)(7), c(0, inc, dec)(7));
    sink *volatile h = hold;
    char some[8] = "";
    h(some, "hello", 5);
    fixed f = 21;
    int (*volatile w)(watched) = watch;
    int (*volatile s)(const int *restrict, int) = sums;
    int (*volatile r)(const int(*)[3], int) = rows;
    int (*volatile o)(int(*)[3]) = row;
    static const int grid[2][3] = {{1, 2, 3}, {4, 5, 6}};
    int line[3] = {7, 8, 9};
    printf("%s %d %d %d %d\n", some, w(&f), s(grid[0], 6), r(grid, 2), o(&line));
    struct s a = {1}, b = {20}, *d = &a;
    struct t t = {&b};
    unary list[] = {inc, neg};
    int (*volatile m)(struct s *, struct s *, struct s **, struct t *, const struct s *,
                      struct s *(*)(struct s *, struct t *), const struct s *(*)(const struct s *), unary, unary *) =
        many;
    printf("%d %d\n", m(&a, &b, &d, &t, &b, first, same, inc, list), m(&b, &a, &d, &t, &a, second, same, dec, list));
    int (*volatile ap)(int (*)(unary, int), unary, int) = apply;
    int (*volatile ne)(int (*)(int (*)(int (*)(int), int), unary, int), int) = nest;
    int (*volatile n)(void) = no_args;
    int (*volatile ma)(int, int, int, int, int, int, int, int, int, int) = many_args;
    enum e (*volatile fl)(enum e, union u, struct s) = flip;
    printf("%d %d %d %d %d %d\n", ap(thrice, inc, 4), ne(apply, 4), n(), ma(1, 2, 3, 4, 5, 6, 7, 8, 9, 100),
           fl(A, (union u){1}, a), fl(B, (union u){1}, a));
    char ca;
    signed char cb;
    unsigned char cc;
    short cd = -7;
    long ce;
    unsigned long cf;
    long long cg;
    bool ch;
    void *ci;
    void (*volatile pa)(char *, signed char *, unsigned char *, const volatile short *, long *, unsigned long *,
                        long long *, bool *, void **, const void *) = pass;
    pa(&ca, &cb, &cc, &cd, &ce, &cf, &cg, &ch, &ci, &a);
    printf("%c %d %u %d %d %d %d %d\n", ca, cb, cc, (int)ce, (int)cf, (int)cg, ch, ci == &a);
    return guest;
}
