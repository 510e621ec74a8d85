// Memory and strings: what a compiler calls of its own, and what C programs expect. The names and what they give are
// those of C11, 7.24.
#include <stdint.h>
#include <string.h>

// Four bytes of whatever is there.
typedef uint32_t __attribute__((may_alias)) word;

static int is_aligned(const void *at) { return ((uintptr_t)at & 3) == 0; }

void *memcpy(void *restrict to, const void *restrict from, size_t n) {
    char *t = to;
    const char *f = from;
    if (is_aligned(t) && is_aligned(f))
        for (; n >= 4; n -= 4, t += 4, f += 4) *(word *)t = *(const word *)f;
    while (n--) *t++ = *f++;
    return to;
}

void *memmove(void *to, const void *from, size_t n) {
    char *t = to;
    const char *f = from;
    if (t <= f)
        while (n--) *t++ = *f++;
    else
        while (n--) t[n] = f[n];
    return to;
}

void *memset(void *to, int byte, size_t n) {
    char *t = to;
    word four = (uint8_t)byte;
    four |= four << 8;
    four |= four << 16;
    for (; n && !is_aligned(t); n--) *t++ = (char)byte;
    for (; n >= 4; n -= 4, t += 4) *(word *)t = four;
    while (n--) *t++ = (char)byte;
    return to;
}

int memcmp(const void *a, const void *b, size_t n) {
    const uint8_t *p = a, *q = b;
    for (; n; n--, p++, q++)
        if (*p != *q) return *p - *q;
    return 0;
}

void *memchr(const void *at, int byte, size_t n) {
    for (const uint8_t *p = at; n--; p++)
        if (*p == (uint8_t)byte) return (void *)p;
    return NULL;
}

size_t strlen(const char *text) {
    const char *end = text;
    while (*end) end++;
    return (size_t)(end - text);
}

int strcmp(const char *a, const char *b) {
    while (*a && *a == *b) a++, b++;
    return (uint8_t)*a - (uint8_t)*b;
}

int strncmp(const char *a, const char *b, size_t n) {
    while (n && *a && *a == *b) a++, b++, n--;
    return n ? (uint8_t)*a - (uint8_t)*b : 0;
}

char *strcpy(char *restrict to, const char *restrict from) {
    for (char *t = to; (*t++ = *from++);)
        ;
    return to;
}

char *strncpy(char *restrict to, const char *restrict from, size_t n) {
    for (char *t = to; n; n--)
        if ((*t++ = *from)) from++;
    return to;
}

char *strcat(char *restrict to, const char *restrict from) {
    strcpy(to + strlen(to), from);
    return to;
}

char *strchr(const char *text, int byte) {
    for (; *text != (char)byte; text++)
        if (!*text) return NULL;
    return (char *)text;
}

char *strrchr(const char *text, int byte) {
    const char *found = NULL;
    do
        if (*text == (char)byte) found = text;
    while (*text++);
    return (char *)found;
}

char *strstr(const char *text, const char *part) {
    size_t n = strlen(part);
    for (; strncmp(text, part, n); text++)
        if (!*text) return NULL;
    return (char *)text;
}
