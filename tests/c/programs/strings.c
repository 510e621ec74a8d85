// The runtime's strings, its heap, and what it makes of formats.
#include <stdint.h>
#include <stdio.h>
#include <stdlib.h>
#include <string.h>

static void strings(void) {
    char a[40] = "one", b[8];
    strcat(a, " and two");
    memmove(a + 2, a, 6);
    strncpy(b, "longer than", sizeof b);
    printf("%s|%.8s|%d %d %d\n", a, b, (int)strlen(a), strcmp("ab", "abc") < 0, strncmp("abx", "aby", 2));
    printf("%s %s %d %s\n", strchr("a,b,c", ','), strrchr("a,b,c", ','), strchr("abc", 'x') != 0,
           strstr("needles", "edl"));
    printf("%d %d %d\n", memcmp("abc", "abd", 3) < 0, memchr("abc", 'c', 2) != 0, *(char *)memchr("abc", 'c', 3));
}

static void formats(void) {
    printf("[%5d][%-5d][%05d][%+d][% d][%.3d][%8.3d]\n", 42, 42, -42, 42, 42, 7, -7);
    printf("[%x][%X][%#x][%o][%u][%hhd][%hu][%lld][%llx]\n", 255u, 255u, 255u, 8u, 4000000000u, (signed char)200,
           (unsigned short)70000, -(1ll << 40), 1ull << 63);
    printf("[%s][%10s][%-10s][%.2s][%c][%%][%*d][%-*d]\n", "text", "right", "left", "cut", 'c', 6, 12, 6, 34);
    char to[12];
    int count = snprintf(to, sizeof to, "%s-%d", "longer than this", 5);
    printf("%s %d %d %s\n", to, count, snprintf(to, sizeof to, "%d", 77), to);
}

static void heap(void) {
    char *a = malloc(10), *b = calloc(5, 4), *c = realloc(NULL, 100);
    int zero = 0;
    for (int k = 0; k < 20; k++) zero |= b[k];
    strcpy(a, "kept");
    a = realloc(a, 1000);
    free(b);
    free(NULL);
    free(c);
    char *d = malloc(50);
    memset(d, 'd', 50);
    printf("%d %s %c%c %d\n", zero, a, d[0], d[49], malloc(SIZE_MAX / 4) == NULL);
    free(a);
    free(d);
}

int main(int guest) {
    strings();
    formats();
    heap();
    puts("end");
    if (guest == 0) exit(300);
    return 1;
}
