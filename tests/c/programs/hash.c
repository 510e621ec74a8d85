// A hash table that is told how to hash, compare and drop; memory from a heap.
#include <stdbool.h>
#include <stdint.h>
#include <stdio.h>
#include <stdlib.h>
#include <string.h>

struct entry {
    void *key, *value;
    struct entry *next;
};

typedef struct {
    uint32_t (*hash)(const void *);
    bool (*equal)(const void *, const void *);
    void (*drop)(void *);
} keys;

struct table {
    keys k;
    unsigned count, room;
    struct entry **rows;
};

static struct table make(keys k, unsigned room) {
    struct table t = {k, 0, room, malloc(room * sizeof(struct entry *))};
    memset(t.rows, 0, room * sizeof *t.rows);
    return t;
}

static struct entry **place(const struct table *t, const void *key) {
    struct entry **at = &t->rows[t->k.hash(key) % t->room];
    while (*at && !t->k.equal((*at)->key, key)) at = &(*at)->next;
    return at;
}

static void set(struct table *t, void *key, void *value);

static void grow(struct table *t) {
    struct table wide = make(t->k, t->room * 2);
    for (unsigned i = 0; i < t->room; i++)
        for (struct entry *e = t->rows[i], *n; e; e = n) {
            n = e->next;
            set(&wide, e->key, e->value);
            free(e);
        }
    free(t->rows);
    *t = wide;
}

static void set(struct table *t, void *key, void *value) {
    struct entry **at = place(t, key);
    if (*at) {
        (*at)->value = value;
        return;
    }
    *at = malloc(sizeof **at);
    **at = (struct entry){key, value, 0};
    if (++t->count > t->room * 3 / 4) grow(t);
}

static bool drop(struct table *t, const void *key) {
    struct entry **at = place(t, key), *e = *at;
    if (!e) return false;
    *at = e->next;
    if (t->k.drop) t->k.drop(e->key);
    free(e);
    t->count--;
    return true;
}

static uint32_t hash_text(const void *key) {
    uint32_t h = 2166136261u;
    for (const uint8_t *s = key; *s; s++) h = (h ^ *s) * 16777619u;
    return h;
}

static bool same_text(const void *a, const void *b) { return !strcmp(a, b); }

static uint32_t hash_number(const void *key) { return (uint32_t)(uintptr_t)key * 2654435761u >> 3; }

static bool same_number(const void *a, const void *b) { return a == b; }

static int dropped;

static void count_drop(void *key) {
    (void)key;
    dropped++;
}

int main(int guest) {
    struct table words = make((keys){hash_text, same_text, count_drop}, 4),
                 numbers = make((keys){hash_number, same_number, 0}, 4);
    static const char *const names[] = {"ant", "bee", "cat", "dog", "eel", "fox", "gnu", "hen", "ant", "cat"};
    for (int i = 0; i < 10; i++) set(&words, (void *)names[i], (void *)(intptr_t)(i + 1));
    for (int i = 0; i < 8; i++) printf("%s=%d ", names[i], (int)(intptr_t)(*place(&words, names[i]))->value);
    printf("%u %u\n", words.count, words.room);
    printf("%d %d ", drop(&words, "bee"), drop(&words, "yak"));
    printf("%u %d\n", words.count, dropped);
    for (intptr_t i = 0; i < 100; i++) set(&numbers, (void *)(i * i), (void *)i);
    intptr_t sum = guest;
    for (intptr_t i = 0; i < 2500; i += 7) {
        struct entry *e = *place(&numbers, (void *)i);
        if (e) sum += (intptr_t)e->value;
    }
    printf("%d %u %u\n", (int)sum, numbers.count, numbers.room);
    return (int)(sum & 127);
}
