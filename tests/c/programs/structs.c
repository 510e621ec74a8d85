// Structures by value and as results, small and large, nested, unnamed, unions, arrays of them, through pointers to
// functions.
#include <stdio.h>
#include <string.h>

struct point {
    int x, y;
};

struct byte {
    unsigned char b;
};

struct wide {
    long long a;
    short b;
    char c[3];
};

struct large {
    int n[12];
    struct point p;
};

union any {
    int i;
    char c[8];
    struct point p;
    long long l;
};

typedef struct {
    struct {
        int r, i;
    } z;

    union {
        unsigned bits;
        char bytes[4];
    };
} unnamed;

enum shape { CIRCLE, SQUARE = 5, LINE = -2 };

typedef struct list {
    struct list *next, *other;
    struct tree *owner;
    int value;
} list;

struct tree {
    struct tree *left, *right;
    list *items;
    struct tree *(*find)(struct tree *, int);
};

static struct point add(struct point a, struct point b) { return (struct point){a.x + b.x, a.y + b.y}; }

static struct point turn(struct point a, struct point b) {
    return (struct point){a.x * b.x - a.y * b.y, a.x * b.y + a.y * b.x};
}

static struct byte flip(struct byte a) {
    a.b ^= 0x5a;
    return a;
}

static struct wide widen(struct wide w, int n) {
    w.a *= n;
    w.b += (short)n;
    w.c[n % 3]++;
    return w;
}

static struct large spread(struct large l, struct point p) {
    for (int i = 0; i < 12; i++) l.n[i] += p.x * i;
    l.p = p;
    return l;
}

static union any put_int(int i) {
    union any a;
    memset(&a, 0, sizeof a);
    a.i = i;
    return a;
}

static union any put_point(int i) {
    union any a = {.p = {i, -i}};
    return a;
}

static unnamed square(unnamed u) {
    unnamed r = {{u.z.r * u.z.r - u.z.i * u.z.i, 2 * u.z.r * u.z.i}, {~u.bits}};
    return r;
}

static int sides(enum shape s) {
    switch (s) {
    case CIRCLE: return 0;
    case SQUARE: return 4;
    case LINE: return 1;
    }
    return -1;
}

static enum shape other(int n) { return n ? SQUARE : LINE; }

static struct tree *find(struct tree *t, int v) {
    for (list *l = t->items; l; l = l->next)
        if (l->value == v) return l->owner;
    for (int side = 0; side < 2; side++) {
        struct tree *c = side ? t->right : t->left, *f = c ? c->find(c, v) : 0;
        if (f) return f;
    }
    return 0;
}

static struct tree *never(struct tree *t, int v) {
    (void)t;
    (void)v;
    return 0;
}

int main(int guest) {
    struct point (*const two[])(struct point, struct point) = {add, turn};
    for (int i = 0; i < 2; i++) {
        struct point p = two[i]((struct point){3, 4}, (struct point){-1, 2 + guest});
        printf("%d,%d ", p.x, p.y);
    }
    struct byte (*volatile f)(struct byte) = flip;
    printf("%x ", f((struct byte){0xff}).b);
    struct wide (*volatile w)(struct wide, int) = widen;
    struct wide ws[3] = {{1ll << 33, 1, "ab"}, {-5, 2, "cd"}, {7, 3, "ef"}};
    for (int i = 0; i < 3; i++) {
        ws[i] = w(ws[i], i + 2);
        printf("%lld %d %c%c ", ws[i].a, ws[i].b, ws[i].c[0], ws[i].c[1]);
    }
    struct large (*volatile s)(struct large, struct point) = spread;
    struct large l = s(s((struct large){{1, 2, 3}, {0, 0}}, (struct point){2, 3}), (struct point){10, 11});
    printf("%d %d %d %d\n", l.n[0], l.n[11], l.p.x, l.p.y);
    union any (*const puts[])(int) = {put_int, put_point};
    for (int i = 0; i < 2; i++) {
        union any a = puts[i](-2);
        printf("%llx ", (unsigned long long)a.l);
    }
    unnamed (*volatile q)(unnamed) = square;
    unnamed u = q((unnamed){{3, -2}, {0xf0f0f0f0}});
    printf("%d %d %02x ", u.z.r, u.z.i, (unsigned char)u.bytes[1]);
    int (*volatile si)(enum shape) = sides;
    enum shape (*volatile ot)(int) = other;
    printf("%d %d %d\n", si(ot(1)), si(ot(0)), si(CIRCLE));
    struct tree a = {0, 0, 0, find}, b = {&a, 0, 0, never}, c = {&b, &a, 0, find};
    list i1 = {0, 0, &a, 10}, i2 = {&i1, &i1, &b, 20};
    a.items = &i1;
    c.items = &i2;
    printf("%d %d %d\n", c.find(&c, 10) == &a, c.find(&c, 20) == &b, c.find(&c, 30) == 0);
    return l.n[11] & 127;
}
