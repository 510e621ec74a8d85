#include <cfi.h>
#include <stdbool.h>
#include <stdio.h>
#include <stdlib.h>

struct shelf;

struct visitor {
    bool (*each)(struct visitor *, const char *name, int n);
};

struct api {
    struct shelf *(*make)(void);
    void (*put)(struct shelf *, const char *, int);
    void (*walk)(const struct shelf *, struct visitor *);
};
