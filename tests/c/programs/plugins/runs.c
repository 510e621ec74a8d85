#include "filter.h"

static struct {
    const struct host *host;
    int last, count, runs;
} s;

static void flush(void) {
    if (s.count > 1) {
        s.host->emit('0' + s.count);
        s.runs++;
    }
    if (s.count) s.host->emit(s.last);
    s.count = 0;
}

static void *begin(const struct host *h) {
    s.host = h;
    return &s;
}

static void byte(void *at, int c) {
    (void)at;
    if (c != s.last) flush();
    s.last = c;
    s.count++;
}

static int end(void *at) {
    (void)at;
    flush();
    return s.runs;
}

const struct filter *runs(const struct host *h) {
    static struct filter f;
    f = (struct filter){"runs", begin, byte, end};
    (void)h;
    return &f;
}
