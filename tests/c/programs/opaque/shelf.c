#include "shelf.h"

struct shelf {
    struct shelf *next;
    const char *name;
    int n;
};

static struct shelf *make(void) {
    struct shelf *s = malloc(sizeof *s);
    *s = (struct shelf){0, "", 0};
    return s;
}

static void add(struct shelf *s, const char *name, int n) {
    struct shelf *m = make();
    *m = (struct shelf){s->next, name, n};
    s->next = m;
}

static void walk(const struct shelf *s, struct visitor *v) {
    while ((s = s->next) && v->each(v, s->name, s->n))
        ;
}

const struct api *shelf(void) {
    static const struct api a = {make, add, walk};
    return &a;
}
