// A plug-in in C: its one function counts how often it was called.
static int calls;

int plus60(int x) {
    calls = calls + 1;
    return x + 60;
}
