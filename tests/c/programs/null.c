// stop: halt
// A call by a null pointer.
int main(int guest) {
    int (*volatile f)(int) = 0;
    return f(guest);
}
