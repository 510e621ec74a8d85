#include <cfi.h>
#include <stdio.h>
#include <stdlib.h>

struct host;

// What a plug-in gives: a structure of its functions.
struct filter {
    const char *name;
    void *(*begin)(const struct host *h);
    void (*byte)(void *state, int c);
    int (*end)(void *state);
};

struct host {
    void (*emit)(int c);
    void *(*room)(size_t n);
    int version;
};
typedef const struct filter *entry(const struct host *h);
