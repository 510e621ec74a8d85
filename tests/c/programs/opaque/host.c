// A handle whose structure only the plug-in knows, and a visitor whose structure only the host knows.
#include "shelf.h"

struct summing {
    struct visitor v;
    int sum;
    const char *last;
};

static bool each(struct visitor *v, const char *name, int n) {
    struct summing *s = (struct summing *)v;
    s->sum += n;
    s->last = name;
    return n < 100;
}

int main(int guest) {
    const struct api *a = ((const struct api *(*)(void))cfi_open(0, 0))();
    struct shelf *s = a->make();
    a->put(s, "one", 1);
    a->put(s, "many", 500);
    a->put(s, "two", 2);
    struct summing m = {{each}, guest, ""};
    a->walk(s, &m.v);
    printf("%d %s\n", m.sum, m.last);
    return m.sum & 63;
}
