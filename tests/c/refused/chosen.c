// ifunc
static int plain(int n) { return n; }

static int (*choose(void))(int) { return plain; }

int entry(int n) __attribute__((ifunc("choose")));
