// Sorting with comparing functions: arrays of structures, of pointers and of numbers; a binary search.
#include <stdint.h>
#include <stdio.h>
#include <string.h>

typedef int (*compare)(const void *, const void *);

static void swap(char *a, char *b, size_t n) {
    while (n--) {
        char t = *a;
        *a++ = *b;
        *b++ = t;
    }
}

static void sort(void *base, size_t count, size_t size, compare by) {
    char *first = base;
    while (count > 1) {
        size_t kept = 0;
        swap(first, first + (count / 2) * size, size);
        for (size_t i = 1; i < count; i++)
            if (by(first + i * size, first) < 0) swap(first + ++kept * size, first + i * size, size);
        swap(first, first + kept * size, size);
        sort(first, kept, size, by);
        first += (kept + 1) * size;
        count -= kept + 1;
    }
}

static void *find(const void *key, const void *base, size_t count, size_t size, compare by) {
    for (size_t low = 0, high = count; low < high;) {
        size_t mid = (low + high) / 2;
        char *at = (char *)base + mid * size;
        int c = by(key, at);
        if (!c) return at;
        if (c < 0)
            high = mid;
        else
            low = mid + 1;
    }
    return 0;
}

struct person {
    char name[8];
    short age;
    unsigned char rank;
};

static int by_name(const void *a, const void *b) {
    return strcmp(((const struct person *)a)->name, ((const struct person *)b)->name);
}

static int by_age(const void *a, const void *b) {
    return ((const struct person *)a)->age - ((const struct person *)b)->age;
}

static int by_int(const void *a, const void *b) {
    int x = *(const int *)a, y = *(const int *)b;
    return (x > y) - (x < y);
}

static int down(const void *a, const void *b) { return by_int(b, a); }

static int by_text(const void *a, const void *b) { return strcmp(*(const char *const *)a, *(const char *const *)b); }

int main(int guest) {
    struct person all[] = {{"mia", 31, 2}, {"ada", 28, 9}, {"bob", 45, 1}, {"zoe", 3, 0}, {"kim", 77, 255}};
    compare ways[] = {by_name, by_age};
    for (int w = 0; w < 2; w++) {
        sort(all, 5, sizeof *all, ways[w]);
        for (int i = 0; i < 5; i++) printf("%s %d %u; ", all[i].name, all[i].age, all[i].rank);
        putchar('\n');
    }
    int numbers[200];
    uint32_t x = 12345 + (uint32_t)guest;
    for (int i = 0; i < 200; i++) {
        x = x * 1103515245 + 12345;
        numbers[i] = (int)(x >> 8) % 1000 - 500;
    }
    sort(numbers, 200, sizeof *numbers, by_int);
    int ordered = 1, found = 0;
    for (int i = 1; i < 200; i++) ordered &= numbers[i - 1] <= numbers[i];
    for (int n = -500; n < 500; n += 5) found += find(&n, numbers, 200, sizeof *numbers, by_int) != 0;
    sort(numbers, 200, sizeof *numbers, down);
    printf("%d %d %d..%d\n", ordered, found, numbers[0], numbers[199]);
    const char *words[] = {"pear", "fig", "apple", "quince", "banana"};
    sort(words, 5, sizeof *words, by_text);
    for (int i = 0; i < 5; i++) printf("%s ", words[i]);
    putchar('\n');
    return found & 127;
}
