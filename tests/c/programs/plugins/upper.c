#include "filter.h"

struct state {
    const struct host *host;
    int changed;
};

static void *begin(const struct host *h) {
    struct state *s = h->room(sizeof *s);
    s->host = h;
    s->changed = 0;
    return s;
}

static void byte(void *at, int c) {
    struct state *s = at;
    if (c >= 'a' && c <= 'z') {
        c -= 32;
        s->changed++;
    }
    s->host->emit(c);
}

static int end(void *at) { return ((struct state *)at)->changed; }

const struct filter *upper(const struct host *h) {
    static const struct filter f = {"upper", begin, byte, end};
    return h->version >= 2 ? &f : 0;
}
