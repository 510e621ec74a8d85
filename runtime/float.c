// Floats and doubles by software (IEEE 754, binary32 and binary64), rounded to nearest, ties to even. No exceptions are
// raised and no other rounding is chosen. The names and what they give are those of libgcc.
//
// A format is taken apart into a number, which has room for either; arithmetic is done on numbers, and the result is
// put together again, rounded once.
#include <stdint.h>

// Compilers call these by name; no pointer leads to them.
#pragma GCC visibility push(hidden)

enum kind { ZERO, FINITE, INFINITE, NONE };

// A finite one is man * 2^(exp - 62), with the highest bit of man at 62. The lowest bit of man also stands for all bits
// that were shifted out, so that it rounds as the exact value would.
struct number {
    enum kind kind;
    int minus, exp;
    uint64_t man;
};

// A format: how many bits the fraction has, and the exponent's highest value.
struct format {
    int bits, top;
};

static const struct format DOUBLE = {52, 2047}, SINGLE = {23, 255};

static int sign_bit(struct format f) { return f.bits == 52 ? 63 : 31; }

// Shifts to the right, and keeps in the lowest bit whether a bit was lost.
static uint64_t shift_down(uint64_t man, int by) {
    if (by <= 0) return man;
    if (by > 63) return man != 0;
    return man >> by | ((man & (((uint64_t)1 << by) - 1)) != 0);
}

static void normalize(struct number *n) {
    if (n->man >> 63) {
        n->man = shift_down(n->man, 1);
        n->exp++;
    }
    for (; !(n->man >> 62); n->man <<= 1) n->exp--;
}

static struct number take_apart(uint64_t a, struct format f) {
    struct number n = {FINITE, (int)(a >> sign_bit(f)) & 1, (int)(a >> f.bits) & f.top,
                       a & (((uint64_t)1 << f.bits) - 1)};
    if (n.exp == f.top) {
        n.kind = n.man ? NONE : INFINITE;
        return n;
    }
    if (n.exp)
        n.man |= (uint64_t)1 << f.bits;
    else
        n.exp = 1;
    if (!n.man) {
        n.kind = ZERO;
        return n;
    }
    n.exp -= f.top >> 1;
    n.man <<= 62 - f.bits;
    normalize(&n);
    return n;
}

// Rounds a man whose fraction has `bits` bits below its highest: half goes to the even neighbour.
static uint64_t rounded(uint64_t man, int bits) {
    int low = 62 - bits;
    uint64_t rest = man & (((uint64_t)1 << low) - 1), half = (uint64_t)1 << (low - 1), kept = man >> low;
    return rest > half || (rest == half && kept & 1) ? kept + 1 : kept;
}

static uint64_t put_together(struct number n, struct format f) {
    uint64_t sign = (uint64_t)n.minus << sign_bit(f), infinite = (uint64_t)f.top << f.bits;
    if (n.kind == NONE) return infinite | (uint64_t)1 << (f.bits - 1);
    if (n.kind == INFINITE) return sign | infinite;
    if (n.kind == ZERO || !n.man) return sign;
    normalize(&n);
    int exp = n.exp + (f.top >> 1);
    if (exp >= f.top) return sign | infinite;
    if (exp < 1) {
        n.man = shift_down(n.man, 1 - exp);
        exp = 1;
    }
    // The highest bit of the fraction raises the exponent by one, as does a carry of the rounding.
    return sign | (((uint64_t)(exp - 1) << f.bits) + rounded(n.man, f.bits));
}

static struct number sum(struct number a, struct number b) {
    if (a.kind == NONE || b.kind == NONE) return a.kind == NONE ? a : b;
    if (a.kind == INFINITE) {
        if (b.kind == INFINITE && a.minus != b.minus) a.kind = NONE;
        return a;
    }
    if (b.kind == INFINITE) return b;
    if (b.kind == ZERO) {
        if (a.kind == ZERO) a.minus &= b.minus;
        return a;
    }
    if (a.kind == ZERO) return b;
    if (a.exp < b.exp || (a.exp == b.exp && a.man < b.man)) {
        struct number swapped = a;
        a = b;
        b = swapped;
    }
    b.man = shift_down(b.man, a.exp - b.exp);
    a.man = a.minus == b.minus ? a.man + b.man : a.man - b.man;
    if (!a.man) {
        a.kind = ZERO;
        a.minus = 0;
    }
    return a;
}

static struct number difference(struct number a, struct number b) {
    b.minus ^= 1;
    return sum(a, b);
}

static struct number product(struct number a, struct number b) {
    if (a.kind == NONE || b.kind == NONE) return a.kind == NONE ? a : b;
    struct number made = {FINITE, a.minus ^ b.minus, a.exp + b.exp, 0};
    if (a.kind == INFINITE || b.kind == INFINITE)
        made.kind = a.kind == ZERO || b.kind == ZERO ? NONE : INFINITE;
    else if (a.kind == ZERO || b.kind == ZERO)
        made.kind = ZERO;
    if (made.kind != FINITE) return made;
    uint64_t lost = 0;
    for (int bit = 0; bit < 63; bit++) {
        if (b.man >> bit & 1) made.man += a.man;
        if (bit < 62) {
            lost |= made.man & 1;
            made.man >>= 1;
        }
    }
    made.man |= lost;
    return made;
}

static struct number quotient(struct number a, struct number b) {
    if (a.kind == NONE || b.kind == NONE) return a.kind == NONE ? a : b;
    struct number made = {FINITE, a.minus ^ b.minus, a.exp - b.exp, 0};
    if (a.kind == b.kind && a.kind != FINITE)
        made.kind = NONE;
    else if (a.kind == ZERO || b.kind == INFINITE)
        made.kind = ZERO;
    else if (b.kind == ZERO || a.kind == INFINITE)
        made.kind = INFINITE;
    if (made.kind != FINITE) return made;
    for (int bit = 0; bit < 63; bit++) {
        made.man <<= 1;
        if (a.man >= b.man) {
            a.man -= b.man;
            made.man |= 1;
        }
        a.man <<= 1;
    }
    made.man |= a.man != 0;
    return made;
}

enum { UNORDERED = 2 };

// -1, 0 or 1, as a is less, equal or more; or UNORDERED.
static int order(struct number a, struct number b) {
    if (a.kind == NONE || b.kind == NONE) return UNORDERED;
    if (a.kind == ZERO && b.kind == ZERO) return 0;
    if (a.kind == ZERO) return b.minus ? 1 : -1;
    if (b.kind == ZERO || a.minus != b.minus) return a.minus ? -1 : 1;
    int less = a.minus ? 1 : -1;
    if (a.kind != b.kind) return a.kind < b.kind ? less : -less;
    if (a.kind == INFINITE) return 0;
    if (a.exp != b.exp) return a.exp < b.exp ? less : -less;
    return a.man == b.man ? 0 : a.man < b.man ? less : -less;
}

// As `order`, but what has no order counts as less.
static int order_below(struct number a, struct number b) {
    int found = order(a, b);
    return found == UNORDERED ? -1 : found;
}

static struct number of_unsigned(uint64_t n) {
    struct number made = {n ? FINITE : ZERO, 0, 62, n};
    if (n) normalize(&made);
    return made;
}

static struct number of_signed(int64_t n) {
    struct number made = of_unsigned(n < 0 ? -(uint64_t)n : (uint64_t)n);
    made.minus = n < 0;
    return made;
}

// Cut toward zero. C does not say what comes of a number that does not fit.
static uint64_t cut(struct number n) {
    if (n.kind != FINITE || n.exp < 0 || n.exp > 63) return 0;
    uint64_t size = n.exp == 63 ? n.man << 1 : n.man >> (62 - n.exp);
    return n.minus ? -size : size;
}

// The functions of a format: its words are of the type T, and X stands for it in names.
#define OF_FORMAT(T, X, FORMAT)                                                                                        \
    static struct number apart_##X(T a) {                                                                              \
        return take_apart(a, FORMAT);                                                                                  \
    } static T together_##X(struct number n) {                                                                         \
        return (T)put_together(n, FORMAT);                                                                             \
    }                                                                                                                  \
    T __add##X##3(T a, T b) { return together_##X(sum(apart_##X(a), apart_##X(b))); }                                  \
    T __sub##X##3(T a, T b) { return together_##X(difference(apart_##X(a), apart_##X(b))); }                           \
    T __mul##X##3(T a, T b) { return together_##X(product(apart_##X(a), apart_##X(b))); }                              \
    T __div##X##3(T a, T b) { return together_##X(quotient(apart_##X(a), apart_##X(b))); }                             \
    int __eq##X##2(T a, T b) { return order(apart_##X(a), apart_##X(b)); }                                             \
    int __ne##X##2(T a, T b) { return order(apart_##X(a), apart_##X(b)); }                                             \
    int __lt##X##2(T a, T b) { return order(apart_##X(a), apart_##X(b)); }                                             \
    int __le##X##2(T a, T b) { return order(apart_##X(a), apart_##X(b)); }                                             \
    int __gt##X##2(T a, T b) { return order_below(apart_##X(a), apart_##X(b)); }                                       \
    int __ge##X##2(T a, T b) { return order_below(apart_##X(a), apart_##X(b)); }                                       \
    int __unord##X##2(T a, T b) { return order(apart_##X(a), apart_##X(b)) == UNORDERED; }                             \
    T __floatsi##X(int32_t n) { return together_##X(of_signed(n)); }                                                   \
    T __floatunsi##X(uint32_t n) { return together_##X(of_unsigned(n)); }                                              \
    T __floatdi##X(int64_t n) { return together_##X(of_signed(n)); }                                                   \
    T __floatundi##X(uint64_t n) { return together_##X(of_unsigned(n)); }                                              \
    int32_t __fix##X##si(T a) { return (int32_t)cut(apart_##X(a)); }                                                   \
    uint32_t __fixuns##X##si(T a) { return (uint32_t)cut(apart_##X(a)); }                                              \
    int64_t __fix##X##di(T a) { return (int64_t)cut(apart_##X(a)); }                                                   \
    uint64_t __fixuns##X##di(T a) { return cut(apart_##X(a)); }

OF_FORMAT(uint64_t, df, DOUBLE)
OF_FORMAT(uint32_t, sf, SINGLE)

uint64_t __extendsfdf2(uint32_t a) { return together_df(apart_sf(a)); }

uint32_t __truncdfsf2(uint64_t a) { return together_sf(apart_df(a)); }

#pragma GCC visibility pop
