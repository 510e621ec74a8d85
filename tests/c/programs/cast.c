// stop: halt
// A comparing function of other parameters than its pointer's: C does not define the call, and here it halts.

static int by_int(const int *a, const int *b) { return *a - *b; }

static int least(const void *a, const void *b, int (*by)(const void *, const void *)) { return by(a, b) < 0; }

int main(int guest) {
    int a = guest, b = 2;
    int (*volatile f)(const void *, const void *, int (*)(const void *, const void *)) = least;
    return f(&a, &b, (int (*)(const void *, const void *))by_int);
}
