// stop: exit 134
// A trap ends the guest with 134.

int main(int guest) {
    if (guest >= 0) __builtin_trap();
    return 0;
}
