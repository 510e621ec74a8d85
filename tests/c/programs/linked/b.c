#include "shared.h"

static int helper(int x) { return x * 10; }

int twice(int x) { return x + x; }

int weak_one(int x) { return x + 1; }

int real_name(int x) {
    counter++;
    return -x;
}

int other_name(int x) __attribute__((alias("real_name")));
hook hooks[4] = {helper, twice, other_name};
