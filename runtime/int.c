// What a compiler calls for arithmetic that RV32I lacks: multiplications, divisions, and shifts of 64 bits. The names
// and what they give are those of libgcc.
#include <stdint.h>

// Compilers call these by name; no pointer leads to them.
#pragma GCC visibility push(hidden)

uint32_t __mulsi3(uint32_t a, uint32_t b) {
    uint32_t product = 0;
    for (; b; b >>= 1, a <<= 1)
        if (b & 1) product += a;
    return product;
}

uint64_t __muldi3(uint64_t a, uint64_t b) {
    uint64_t product = 0;
    for (; b; b >>= 1, a <<= 1)
        if (b & 1) product += a;
    return product;
}

// Long division, bit by bit. By zero it gives what an instruction of RISC-V would: all bits, and the dividend as rest.
static uint32_t divide(uint32_t n, uint32_t by, uint32_t *rest) {
    uint32_t quotient = 0, left = 0;
    for (int bit = 31; bit >= 0; bit--) {
        uint32_t carry = left >> 31;
        left = left << 1 | (n >> bit & 1);
        if (carry || left >= by) {
            left -= by;
            quotient |= 1u << bit;
        }
    }
    *rest = left;
    return quotient;
}

static uint64_t divide_long(uint64_t n, uint64_t by, uint64_t *rest) {
    if (n >> 32 == 0 && by >> 32 == 0) {
        uint32_t low, quotient = divide((uint32_t)n, (uint32_t)by, &low);
        *rest = low;
        return by ? quotient : UINT64_MAX;
    }
    uint64_t quotient = 0, left = 0;
    for (int bit = 63; bit >= 0; bit--) {
        uint32_t carry = (uint32_t)(left >> 63);
        left = left << 1 | n >> 63;
        n <<= 1;
        quotient <<= 1;
        if (carry || left >= by) {
            left -= by;
            quotient |= 1;
        }
    }
    *rest = left;
    return quotient;
}

static uint32_t size(int32_t n) { return n < 0 ? -(uint32_t)n : (uint32_t)n; }

static uint64_t size_long(int64_t n) { return n < 0 ? -(uint64_t)n : (uint64_t)n; }

uint32_t __udivsi3(uint32_t n, uint32_t by) {
    uint32_t rest;
    return divide(n, by, &rest);
}

uint32_t __umodsi3(uint32_t n, uint32_t by) {
    uint32_t rest;
    divide(n, by, &rest);
    return rest;
}

int32_t __divsi3(int32_t n, int32_t by) {
    uint32_t quotient = __udivsi3(size(n), size(by));
    return (int32_t)(by && (n ^ by) < 0 ? -quotient : quotient);
}

int32_t __modsi3(int32_t n, int32_t by) {
    uint32_t rest = __umodsi3(size(n), size(by));
    return (int32_t)(n < 0 ? -rest : rest);
}

uint64_t __udivdi3(uint64_t n, uint64_t by) {
    uint64_t rest;
    return divide_long(n, by, &rest);
}

uint64_t __umoddi3(uint64_t n, uint64_t by) {
    uint64_t rest;
    divide_long(n, by, &rest);
    return rest;
}

int64_t __divdi3(int64_t n, int64_t by) {
    uint64_t quotient = __udivdi3(size_long(n), size_long(by));
    return (int64_t)(by && (n ^ by) < 0 ? -quotient : quotient);
}

int64_t __moddi3(int64_t n, int64_t by) {
    uint64_t rest = __umoddi3(size_long(n), size_long(by));
    return (int64_t)(n < 0 ? -rest : rest);
}

static uint64_t joined(uint32_t high, uint32_t low) { return (uint64_t)high << 32 | low; }

uint64_t __ashldi3(uint64_t n, int by) {
    uint32_t high = (uint32_t)(n >> 32), low = (uint32_t)n;
    if (by & 32) return joined(low << (by & 31), 0);
    return by ? joined(high << by | low >> (32 - by), low << by) : n;
}

uint64_t __lshrdi3(uint64_t n, int by) {
    uint32_t high = (uint32_t)(n >> 32), low = (uint32_t)n;
    if (by & 32) return joined(0, high >> (by & 31));
    return by ? joined(high >> by, low >> by | high << (32 - by)) : n;
}

int64_t __ashrdi3(int64_t n, int by) {
    int32_t high = (int32_t)(n >> 32);
    uint32_t low = (uint32_t)n;
    if (by & 32) return (int64_t)joined((uint32_t)(high >> 31), (uint32_t)(high >> (by & 31)));
    return by ? (int64_t)joined((uint32_t)(high >> by), low >> by | (uint32_t)high << (32 - by)) : n;
}

#pragma GCC visibility pop
