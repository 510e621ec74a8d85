// A host with three plug-ins that are loaded as they are asked for; each gives a structure of functions and calls back.
#include "filter.h"
static int emitted;

static void emit(int c) {
    emitted++;
    putchar(c);
}

static void *room(size_t n) { return malloc(n); }
static const struct host host = {emit, room, 3};
static const char sample[] = "Heeello, World!!";

int main(int guest) {
    int all = guest;
    for (int k = 0; k < 4; k++) {
        static const long numbers[] = {0, 1, 2, 99};
        long n = numbers[k];
        entry *e = (entry *)cfi_open(n, 0);
        if (!e) {
            printf("no more\n");
            break;
        }
        const struct filter *f = e(&host);
        if (!f) {
            printf("%d is not for version %d\n", (int)n, host.version);
            continue;
        }
        void *state = f->begin(&host);
        printf("%s: ", f->name);
        for (const char *s = sample; *s; s++) f->byte(state, *s);
        int code = f->end(state);
        printf(" (%d, %d)\n", code, emitted);
        all += code;
    }
    return all;
}
