// the pointer has no prototype
// A pointer to a function of which no parameters are said.
static int add(int a, int b) { return a + b; }

int entry(int guest) {
    int (*volatile f)() = (int (*)())add;
    return f(guest, 1);
}
