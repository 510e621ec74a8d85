// Floats by software beside this machine's, over pairs that are drawn anew from one seed: usage: floats COUNT
#include <stdio.h>
#include <stdlib.h>
#include <string.h>

#include "../../runtime/float.c"

static int wrong;

static uint64_t drawn(void) {
    static uint64_t state = 88172645463325252u;
    state ^= state << 13;
    state ^= state >> 7;
    state ^= state << 17;
    return state;
}

static double double_of(uint64_t bits) {
    double a;
    memcpy(&a, &bits, sizeof a);
    return a;
}

static uint64_t bits_of(double a) {
    uint64_t bits;
    memcpy(&bits, &a, sizeof bits);
    return bits;
}

static float float_of(uint32_t bits) {
    float a;
    memcpy(&a, &bits, sizeof a);
    return a;
}

static uint32_t bits_of_float(float a) {
    uint32_t bits;
    memcpy(&bits, &a, sizeof bits);
    return bits;
}

// What is no number has many spellings, all of which count as one.
static uint64_t one_none(uint64_t bits) { return (bits << 1) > 0xffe0000000000000u ? 0x7ff8000000000000u : bits; }

static uint32_t one_none_float(uint32_t bits) { return (bits << 1) > 0xff000000u ? 0x7fc00000u : bits; }

// Any bits; numbers of like size, tiny ones, all sizes, small whole ones, and the ends of each kind.
static uint64_t pick(void) {
    static const uint64_t ends[] = {0,
                                    1,
                                    0x3ff0000000000000,
                                    0x7fefffffffffffff,
                                    0x7ff0000000000000,
                                    0x7ff8000000000000,
                                    0x8000000000000000,
                                    0xfff0000000000000};
    uint64_t a = drawn(), fraction = a & 0x800fffffffffffff;
    switch (drawn() % 6) {
    case 0: return a;
    case 1: return fraction | (1000 + drawn() % 46) << 52;
    case 2: return fraction;
    case 3: return (a & 0x8000000000000000) | (drawn() % 2047) << 52;
    case 4: return bits_of((double)(int)(a % 2000) - 1000);
    default: return ends[a % 8];
    }
}

static uint32_t pick_float(void) {
    static const uint32_t ends[] = {0, 1, 0x3f800000, 0x7f7fffff, 0x7f800000, 0x7fc00000, 0x80000000, 0xff800000};
    uint32_t a = (uint32_t)drawn(), fraction = a & 0x807fffff;
    switch (drawn() % 6) {
    case 0: return a;
    case 1: return fraction | (uint32_t)(110 + drawn() % 30) << 23;
    case 2: return fraction;
    case 3: return (a & 0x80000000) | (uint32_t)(drawn() % 255) << 23;
    case 4: return bits_of_float((float)((int)(a % 2000) - 1000));
    default: return ends[a % 8];
    }
}

static void same(const char *name, uint64_t a, uint64_t b, uint64_t found, uint64_t wanted) {
    if (found == wanted || ++wrong > 20) return;
    printf("%s %llx %llx: %llx, not %llx\n", name, (unsigned long long)a, (unsigned long long)b,
           (unsigned long long)found, (unsigned long long)wanted);
}

static void doubles(uint64_t p, uint64_t q) {
    double a = double_of(p), b = double_of(q);
    same("add", p, q, one_none(__adddf3(p, q)), one_none(bits_of(a + b)));
    same("sub", p, q, one_none(__subdf3(p, q)), one_none(bits_of(a - b)));
    same("mul", p, q, one_none(__muldf3(p, q)), one_none(bits_of(a * b)));
    same("div", p, q, one_none(__divdf3(p, q)), one_none(bits_of(a / b)));
    same("eq", p, q, __eqdf2(p, q) == 0, a == b);
    same("ne", p, q, __nedf2(p, q) != 0, a != b);
    same("lt", p, q, __ltdf2(p, q) < 0, a < b);
    same("le", p, q, __ledf2(p, q) <= 0, a <= b);
    same("gt", p, q, __gtdf2(p, q) > 0, a > b);
    same("ge", p, q, __gedf2(p, q) >= 0, a >= b);
    same("unord", p, q, (uint64_t)__unorddf2(p, q), __builtin_isunordered(a, b));
}

static void conversions(uint64_t p) {
    double a = double_of(p);
    same("to single", p, 0, one_none_float(__truncdfsf2(p)), one_none_float(bits_of_float((float)a)));
    same("of signed", p, 0, __floatdidf((int64_t)p), bits_of((double)(int64_t)p));
    same("of unsigned", p, 0, __floatundidf(p), bits_of((double)p));
    same("of int", p, 0, __floatsidf((int)p), bits_of((double)(int)p));
    same("of unsigned int", p, 0, __floatunsidf((unsigned)p), bits_of((double)(unsigned)p));
    if (a > -9e18 && a < 9e18) same("to signed", p, 0, (uint64_t)__fixdfdi(p), (uint64_t)(int64_t)a);
    if (a > -2e9 && a < 2e9) same("to int", p, 0, (uint64_t)__fixdfsi(p), (uint64_t)(int)a);
    if (a >= 0 && a < 1.8e19) same("to unsigned", p, 0, __fixunsdfdi(p), (uint64_t)a);
    if (a >= 0 && a < 4e9) same("to unsigned int", p, 0, __fixunsdfsi(p), (unsigned)a);
    same("single of signed", p, 0, __floatdisf((int64_t)p), bits_of_float((float)(int64_t)p));
    same("single of unsigned", p, 0, __floatundisf(p), bits_of_float((float)p));
    same("single of int", p, 0, __floatsisf((int)p), bits_of_float((float)(int)p));
}

static void singles(uint32_t p, uint32_t q) {
    float a = float_of(p), b = float_of(q);
    same("add, single", p, q, one_none_float(__addsf3(p, q)), one_none_float(bits_of_float(a + b)));
    same("sub, single", p, q, one_none_float(__subsf3(p, q)), one_none_float(bits_of_float(a - b)));
    same("mul, single", p, q, one_none_float(__mulsf3(p, q)), one_none_float(bits_of_float(a * b)));
    same("div, single", p, q, one_none_float(__divsf3(p, q)), one_none_float(bits_of_float(a / b)));
    same("lt, single", p, q, __ltsf2(p, q) < 0, a < b);
    same("ge, single", p, q, __gesf2(p, q) >= 0, a >= b);
    same("to double", p, 0, one_none(__extendsfdf2(p)), one_none(bits_of((double)a)));
    if (a > -2e9f && a < 2e9f) same("single to int", p, 0, (uint64_t)__fixsfsi(p), (uint64_t)(int)a);
}

int main(int count, char **words) {
    long pairs = count > 1 ? atol(words[1]) : 1000;
    for (long k = 0; k < pairs; k++) {
        uint64_t p = pick();
        doubles(p, pick());
        conversions(p);
        uint32_t q = pick_float();
        singles(q, pick_float());
    }
    return wrong != 0;
}
