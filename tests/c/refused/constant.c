// or is a constant
// A call of an address that is written as a number.
int entry(int guest) { return ((int (*)(int))0x1000)(guest) + 1; }
