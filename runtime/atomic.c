// What Clang calls for _Atomic, since RV32I has no atomic instructions. A guest is one thread and shares its data with
// no other, so each is an ordinary access. The names are those of libatomic.
#include <stdbool.h>
#include <stddef.h>
#include <stdint.h>
#include <string.h>

// Clang calls these by name; no pointer leads to them.
#pragma GCC visibility push(hidden)

#define FETCH(T, n, name, value)                                                                                       \
    T __atomic_fetch_##name##_##n(volatile T *at, T b, int o) {                                                        \
        (void)o;                                                                                                       \
        T a = *at;                                                                                                     \
        *at = (T)(value);                                                                                              \
        return a;                                                                                                      \
    }

#define OF_SIZE(T, n)                                                                                                  \
    T __atomic_load_##n(const volatile T *at, int o) {                                                                 \
        (void)o;                                                                                                       \
        return *at;                                                                                                    \
    }                                                                                                                  \
    void __atomic_store_##n(volatile T *at, T b, int o) {                                                              \
        (void)o;                                                                                                       \
        *at = b;                                                                                                       \
    }                                                                                                                  \
    bool __atomic_compare_exchange_##n(volatile T *at, T *wanted, T b, bool weak, int done, int failed) {              \
        (void)weak, (void)done, (void)failed;                                                                          \
        T a = *at;                                                                                                     \
        if (a != *wanted) {                                                                                            \
            *wanted = a;                                                                                               \
            return false;                                                                                              \
        }                                                                                                              \
        *at = b;                                                                                                       \
        return true;                                                                                                   \
    }                                                                                                                  \
    T __atomic_exchange_##n(volatile T *at, T b, int o) {                                                              \
        (void)o;                                                                                                       \
        T a = *at;                                                                                                     \
        *at = b;                                                                                                       \
        return a;                                                                                                      \
    }                                                                                                                  \
    FETCH(T, n, add, a + b)                                                                                            \
    FETCH(T, n, sub, a - b)                                                                                            \
    FETCH(T, n, and, a &b)                                                                                             \
    FETCH(T, n, or, a | b)                                                                                             \
    FETCH(T, n, xor, a ^ b)                                                                                            \
    FETCH(T, n, nand, ~(a & b))

OF_SIZE(uint8_t, 1)
OF_SIZE(uint16_t, 2)
OF_SIZE(uint32_t, 4)
OF_SIZE(uint64_t, 8)

// Those of any size. Clang knows their names and takes no other meaning for them, so they are made by other names.
void load(size_t n, const void *at, void *to, int o) __asm__("__atomic_load");
void store(size_t n, void *at, const void *from, int o) __asm__("__atomic_store");
void exchange(size_t n, void *at, const void *from, void *to, int o) __asm__("__atomic_exchange");
bool compare(size_t n, void *at, void *wanted, const void *from, int done,
             int failed) __asm__("__atomic_compare_exchange");
bool is_free(size_t n, const volatile void *at) __asm__("__atomic_is_lock_free");

void load(size_t n, const void *at, void *to, int o) {
    (void)o;
    memcpy(to, at, n);
}

void store(size_t n, void *at, const void *from, int o) {
    (void)o;
    memcpy(at, from, n);
}

void exchange(size_t n, void *at, const void *from, void *to, int o) {
    (void)o;
    char *a = at, *t = to;
    for (const char *f = from; n--; a++, t++) {
        char old = *a;
        *a = *f++;
        *t = old;
    }
}

bool compare(size_t n, void *at, void *wanted, const void *from, int done, int failed) {
    (void)done, (void)failed;
    bool same = !memcmp(at, wanted, n);
    memcpy(same ? at : wanted, same ? from : at, n);
    return same;
}

bool is_free(size_t n, const volatile void *at) {
    (void)n, (void)at;
    return true;
}

#pragma GCC visibility pop
