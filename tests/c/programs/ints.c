// All widths of integers, signed and not, in registers, memory, parameters and results of functions that pointers
// reach.
#include <stdbool.h>
#include <stdio.h>

typedef signed char i8;
typedef unsigned char u8;
typedef short i16;
typedef unsigned short u16;
typedef long long i64;
typedef unsigned long long u64;
#define OPS(T)                                                                                                         \
    static T T##_add(T a, T b) { return (T)(a + b); }                                                                  \
    static T T##_sub(T a, T b) { return (T)(a - b); }                                                                  \
    static T T##_mul(T a, T b) { return (T)(a * b); }                                                                  \
    static T T##_div(T a, T b) { return (T)(a / b); }                                                                  \
    static T T##_rem(T a, T b) { return (T)(a % b); }                                                                  \
    static T T##_shl(T a, T b) { return (T)(a << (b & 7)); }                                                           \
    static T T##_shr(T a, T b) { return (T)(a >> (b & 7)); }                                                           \
    static T T##_xor(T a, T b) { return (T)(a ^ ~b); }                                                                 \
    static T (*const T##_all[])(T, T) = {T##_add, T##_sub, T##_mul, T##_div, T##_rem, T##_shl, T##_shr, T##_xor};      \
    static void T##_show(void) {                                                                                       \
        static const T some[] = {(T)1,    (T)7,      (T)100,        (T)-3,                                             \
                                 (T)-128, (T)0x7fff, (T)0x12345678, (T)0xfedcba9876543210ull};                         \
        for (unsigned k = 0; k < 8; k++) {                                                                             \
            u64 h = 0;                                                                                                 \
            for (int i = 0; i < 8; i++)                                                                                \
                for (int j = 0; j < 8; j++) h = (h << 5 | h >> 59) ^ (u64)T##_all[k](some[i], (T)(some[j] | 1));       \
            printf("%016llx ", h);                                                                                     \
        }                                                                                                              \
        printf(#T "\n");                                                                                               \
    }

OPS(i8) OPS(u8) OPS(i16) OPS(u16) OPS(int) OPS(unsigned) OPS(i64) OPS(u64) static bool both(bool a, bool b) {
    return a && b;
}

static bool either(bool a, bool b) { return a || b; }

static bool differ(bool a, bool b) { return a != b; }

static char up(char c) { return c >= 'a' && c <= 'z' ? (char)(c - 32) : c; }

static int bits(u64 x) { return __builtin_popcountll(x); }

static int zeros(u64 x) { return x ? __builtin_clzll(x) : 64; }

static int tail(u64 x) { return x ? __builtin_ctzll(x) : 64; }

static i64 mixed(i8 a, u16 b, bool c, i64 d, u8 e, short f, unsigned g, i64 h, char i, i64 j) {
    return a + b + c + d + e + f + (i64)g + h + i + j;
}

static u64 big(u64 n) {
    u64 r = 1;
    while (n > 1) r *= n--;
    return r;
}

int main(int guest) {
    static void (*const shows[])(void) = {i8_show,  u8_show,       i16_show, u16_show,
                                          int_show, unsigned_show, i64_show, u64_show};
    for (int i = 0; i < 8; i++) shows[i]();
    bool (*const logic[])(bool, bool) = {both, either, differ};
    for (int i = 0; i < 3; i++)
        for (int j = 0; j < 4; j++) putchar('0' + logic[i]((j & 2) != 0, j & 1));
    char (*volatile u)(char) = up;
    for (const char *s = " straight"; *s; s++) putchar(u(*s));
    int (*const counts[])(u64) = {bits, zeros, tail};
    for (int i = 0; i < 3; i++) printf(" %d %d", counts[i](0x00f0000010000000ull), counts[i](0x8000ull));
    i64 (*volatile m)(i8, u16, bool, i64, u8, short, unsigned, i64, char, i64) = mixed;
    printf("\n%lld %llu %lld %lld\n",
           m(-1, 65535, true, -1234567890123ll, 255, -32768, 4000000000u, 1ll << 40, 'x', guest), big(20), -7ll / 2,
           (i64)big(20) % -1000000007);

    struct {
        unsigned a : 3;
        int b : 5;
        unsigned long long c : 40;
        bool d : 1;
    } f = {9 & 7, -3, 0xabcdef0123ull, true};

    f.a += 7;
    f.b *= 3;
    f.c <<= 4;
    printf("%u %d %llx %d\n", f.a, f.b, (u64)f.c, f.d);
    return 0;
}
