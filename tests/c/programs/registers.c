// Static functions of many parameters, and many values that live at once: where an optimizer chooses the calling
// convention itself, it would take x28 to x31 too.
#include <stdio.h>

static int __attribute__((noinline))
mix(int a, int b, int c, int d, int e, int f, int g, int h, int i, int j, int k, int l, int m, int n) {
    return a - b * 2 + c * 3 - d * 4 + e * 5 - f * 6 + g * 7 - h * 8 + i * 9 - j * 10 + k * 11 - l * 12 + m * 13 -
           n * 14;
}

static long long __attribute__((noinline))
wide(long long a, long long b, long long c, long long d, long long e, int f) {
    return a * 3 + b * 5 + c * 7 + d * 11 + e * 13 + f;
}

static unsigned __attribute__((noinline)) rounds(const unsigned *from, int n) {
    unsigned a = from[0], b = from[1], c = from[2], d = from[3], e = from[4], f = from[5], g = from[6], h = from[7];
    unsigned i = a ^ 1, j = b ^ 2, k = c ^ 3, l = d ^ 4, m = e ^ 5, o = f ^ 6, p = g ^ 7, q = h ^ 8;
    while (n--) {
        a += b ^ i, b += c ^ j, c += d ^ k, d += e ^ l, e += f ^ m, f += g ^ o, g += h ^ p, h += a ^ q;
        i = i << 3 | i >> 29, j = j << 5 | j >> 27, k += a, l += b, m ^= c, o ^= d, p -= e, q -= f;
    }
    return a + b + c + d + e + f + g + h + i + j + k + l + m + o + p + q;
}

int main(int guest) {
    static const unsigned seeds[] = {1, 2, 3, 5, 8, 13, 21, 34};
    int x = guest + 1;
    printf("%d %d\n", mix(x, 2, 3, 4, 5, 6, 7, 8, 9, 10, 11, 12, 13, 14),
           mix(14, 13, 12, 11, 10, 9, 8, 7, 6, 5, 4, 3, 2, x));
    printf("%lld %x %x\n", wide(x, 1ll << 33, -5, 7ll << 40, x, 9), rounds(seeds, 1), rounds(seeds, 40));
    return 0;
}
