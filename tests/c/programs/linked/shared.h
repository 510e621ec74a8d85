// What the files of this program share.
#include <stdio.h>

typedef int (*hook)(int);
extern hook hooks[4];
extern const char *const title;
extern int counter;
int twice(int x);
int weak_one(int x);
int only_weak(int x);
int other_name(int x);
int missing(int x) __attribute__((weak));
struct opaque;
struct opaque *make(int n);
int look(const struct opaque *o);
int each(struct opaque *o, int (*f)(struct opaque *, int), int n);
