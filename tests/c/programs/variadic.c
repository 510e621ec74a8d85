// Variable arguments: called by name and by pointers, passed on, of all widths.
#include <stdarg.h>
#include <stdio.h>
#include <string.h>

typedef int printer(const char *, ...);
typedef int summer(int n, ...);

static int sum(int n, ...) {
    va_list a;
    va_start(a, n);
    int s = 0;
    while (n--) s += va_arg(a, int);
    va_end(a);
    return s;
}

static int largest(int n, ...) {
    va_list a, b;
    va_start(a, n);
    va_copy(b, a);
    int l = va_arg(b, int), k = n;
    while (--k) {
        int x = va_arg(b, int);
        if (x > l) l = x;
    }
    va_end(b);
    va_end(a);
    return l;
}

static int loud(const char *form, ...) {
    va_list a;
    va_start(a, form);
    int count = printf("** ") + vprintf(form, a);
    va_end(a);
    return count;
}

static long long wide(const char *kinds, ...) {
    va_list a;
    va_start(a, kinds);
    long long s = 0;
    for (; *kinds; kinds++) switch (*kinds) {
        case 'i': s += va_arg(a, int); break;
        case 'l': s += va_arg(a, long long); break;
        case 's': s += (long long)strlen(va_arg(a, char *)); break;
        case 'p': {
            struct pair {
                int a, b;
            } p = va_arg(a, struct pair);

            s += p.a * p.b;
            break;
        }
        }
    va_end(a);
    return s;
}

struct logger {
    printer *out;
    int level;
};

static void log_to(const struct logger *l, int level, const char *what, int n) {
    if (level <= l->level) l->out("%s: %d\n", what, n);
}

int main(int guest) {
    printer *const printers[] = {printf, loud};
    for (int i = 0; i < 2; i++)
        printers[i]("%d %s %c %5d|%05d|%x %lld %%\n", i, "text", 'c', -42, -42, 48879u, -(1ll << 40));
    summer *const summers[] = {sum, largest};
    for (int i = 0; i < 2; i++) printf("%d %d ", summers[i](3, 10, 30, 20), summers[i](9, 1, 2, 3, 4, 5, 6, 7, 8, -9));
    long long (*volatile w)(const char *, ...) = wide;

    struct pair {
        int a, b;
    };

    printf("%lld\n", w("ilsplii", 1, 1ll << 33, "four", (struct pair){6, 7}, -5ll, 100, guest));
    struct logger l[] = {{printf, 1}, {loud, 2}};
    for (int i = 0; i < 2; i++)
        for (int v = 1; v < 4; v++) log_to(&l[i], v, "level", v);
    return 3;
}
