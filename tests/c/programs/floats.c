// Floats and doubles through functions that pointers reach; what is printed are bits and whole numbers.
#include <stdint.h>
#include <stdio.h>
#include <string.h>

static double add(double a, double b) { return a + b; }

static double less(double a, double b) { return a - b; }

static double times(double a, double b) { return a * b; }

static double over(double a, double b) { return a / b; }

static float single(float a, float b) { return a * b + a / b; }

static double root(double a) {
    double x = a;
    for (int i = 0; i < 100 && x * x > a; i++) x = (x + a / x) / 2;
    return x;
}

static unsigned long long bits(double a) {
    uint64_t n;
    memcpy(&n, &a, sizeof n);
    return n;
}

int main(int guest) {
    static double (*const all[])(double, double) = {add, less, times, over};
    static const double some[] = {1.5, -0.1, 3e300, 1e-310, 7};
    for (int k = 0; k < 4; k++)
        for (int i = 0; i < 5; i++) printf("%016llx%c", bits(all[k](some[i], some[(i + 2) % 5])), i < 4 ? ' ' : '\n');
    float (*volatile s)(float, float) = single;
    printf("%d %d\n", (int)(s(2.5f, 0.3f) * 1000), (int)(s(-1e10f, 3) / 1e6f));
    printf("%d %u %lld\n", (int)(root(2 + guest) * 1e6), (unsigned)root(4e18), (long long)(root(1e20) * 1000));
    printf("%d%d%d%d%d\n", some[0]<some[4], some[1]> some[3], some[2] == some[2], some[0] != some[1], some[3] >= 0);
    return 0;
}
