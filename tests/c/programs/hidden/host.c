// stop: halt
// A pointer to a function that another file says is called by its name alone; the call by name is fine.
#include <stdio.h>

int counted(int n);

int main(int guest) {
    int (*volatile f)(int) = counted;
    printf("%d\n", counted(guest));
    return f(guest);
}
