// no constructors
static int n;

__attribute__((constructor)) static void early(void) { n = 3; }

int entry(int guest) { return n + guest; }
