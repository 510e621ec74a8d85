#include <stdio.h>

int main(int guest) {
    printf("hello, guest ");
    putchar('0' + guest);
    putchar('\n');
    return 7;
}
