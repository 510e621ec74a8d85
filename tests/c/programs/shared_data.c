// What is local to a thread, and what is atomic: ordinary variables of a guest, which is one thread.
#include <stdatomic.h>
#include <stdbool.h>
#include <stdint.h>
#include <stdio.h>

static _Thread_local int depth = 3;

static __thread struct {
    int a;
    char b[12];
} state = {4, "local"};

static _Atomic int count;
static _Atomic uint8_t byte = 250;
static atomic_ullong large = 1ull << 40;
static atomic_flag taken = ATOMIC_FLAG_INIT;

struct pair {
    int a, b, c;
};

static _Atomic struct pair whole;

static int deeper(int n) {
    static _Thread_local int calls;
    calls++;
    depth += n;
    return n ? deeper(n - 1) : calls;
}

int main(int guest) {
    int calls = deeper(4);
    printf("%d %d %d %s\n", calls, depth, state.a, state.b);
    atomic_fetch_add(&count, 5 + guest);
    count += 2;
    byte += 10;
    int wanted = 6;
    bool first = atomic_compare_exchange_strong(&count, &wanted, 100);
    bool second = atomic_compare_exchange_strong(&count, &wanted, 100);
    printf("%d %d %d %d %u\n", first, second, wanted, count, (unsigned)byte);
    unsigned long long was = atomic_exchange(&large, 5);
    large |= 1ull << 36;
    bool free_before = !atomic_flag_test_and_set(&taken), free_after = !atomic_flag_test_and_set(&taken);
    printf("%llx %llx %d %d\n", was, (unsigned long long)large, free_before, free_after);
    atomic_store(&whole, ((struct pair){1, 2, 3}));
    struct pair old = atomic_exchange(&whole, ((struct pair){4, 5, 6})), now = atomic_load(&whole);
    printf("%d %d\n", old.a + old.b + old.c, now.a * now.b * now.c);
    return 0;
}
