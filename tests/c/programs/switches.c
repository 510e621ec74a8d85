// Switches: dense, sparse, of wide values, of long longs, nested, falling through, with a table of values.
#include <stdio.h>

#define C(n)                                                                                                           \
    case n: return (n)*7 % 31 + depth(n);
#define C8(n) C(n) C(n + 1) C(n + 2) C(n + 3) C(n + 4) C(n + 5) C(n + 6) C(n + 7)

static int depth(int n) { return n ? 1 + depth(n / 4) : 0; }

static int dense(int n) {
    switch (n) { C8(0) C8(8) C8(16) C8(24) C8(32) C8(40) C8(48) C8(56) default : return -1; }
}

static const char *name(int n) {
    switch (n) {
    case 0: return "zero";
    case 1: return "one";
    case 2: return "two";
    case 3: return "three";
    case 4: return "four";
    case 5: return "five";
    default: return "many";
    }
}

static int sparse(unsigned n) {
    switch (n) {
    case 1: putchar('a'); return 3;
    case 100: putchar('b'); return depth((int)n);
    case 10000: putchar('c'); return 9;
    case 1000000: return depth(7);
    case 0xffffffffu: putchar('e'); return 1;
    case 0x80000000u: return 4;
    default: return 0;
    }
}

static int wide(long long n) {
    switch (n) {
    case -1: return depth(3);
    case 1ll << 40: return 11;
    case 42: return 12;
    case (1ll << 40) + 1: return depth(99);
    default: return 0;
    }
}

static int nested(int a, int b) {
    switch (a) {
    case 0:
        switch (b) {
        case 0: return depth(1);
        case 1: return 2;
        case 2: return depth(3);
        case 3: return 4;
        case 4: return depth(5);
        default: break;
        }
        return 6;
    case 1: putchar('x'); // falls through
    case 2: putchar('y'); // falls through
    case 3: putchar('z'); break;
    case 4:
        for (int i = 0;; i++) switch (i + b) {
            case 3: return i;
            case 4: putchar('4'); continue;
            case 5: putchar('5'); continue;
            case 6: return -i;
            case 7: putchar('7'); continue;
            default:
                putchar('.');
                if (i > 5) return 60;
            }
    case 5 ... 9: return depth(a);
    default: return 7;
    }
    return 8;
}

// The first instructions are those of the switch, which has no other way.
static int __attribute__((noinline)) sure(int n) {
    switch (n) {
    case 0: return depth(100);
    case 1: return dense(3);
    case 2: return sparse(100);
    case 3: return wide(42);
    case 4: return nested(4, 0);
    case 5: return *name(2);
    default: __builtin_unreachable();
    }
}

int main(int guest) {
    int all = guest;
    for (int i = -1; i < 66; i++) all += dense(i) * (i + 3);
    for (int i = 0; i < 8; i++) printf("%s ", name(i));
    static const unsigned some[] = {0, 1, 100, 10000, 1000000, ~0u, 0x80000000u, 99};
    for (int i = 0; i < 8; i++) printf("%d ", sparse(some[i]));
    printf("%d %d %d %d %d\n", wide(-1), wide(1ll << 40), wide(42), wide((1ll << 40) + 1), wide(1));
    for (int a = -1; a < 11; a++)
        for (int b = 0; b < 6; b++) printf("%d ", nested(a, b));
    for (int i = 0; i < 6; i++) printf("%d ", sure(i));
    printf("%d\n", all);
    return all & 63;
}
