// it is inline assembly
int entry(int (*f)(void)) {
    int r;
    __asm__ volatile("jalr %1\n\tmv %0, a0" : "=r"(r) : "r"(f) : "ra", "a0", "memory");
    return r;
}
