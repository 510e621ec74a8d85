// Output, an end, and memory to take and give back. The names and what they give are those of C11, 7.21 and 7.22,
// without floating point in formats.
#include "cfi.h"
#include <limits.h>
#include <stdbool.h>
#include <stdint.h>
#include <stdio.h>
#include <stdlib.h>
#include <string.h>

// ---- ends

_Noreturn void exit(int code) { cfi_exit(code); }

// The code of a process that aborts, as of a trap.
_Noreturn void abort(void) { cfi_exit(134); }

int abs(int n) { return n < 0 ? -n : n; }

// ---- the heap

// It lies above the modules' data, of which there are 0x80000 bytes at most, and below the stack's 0x20000.
#define HEAP ((char *)0x40080000)
#define HEAP_BYTES 0x60000

// What stands before each piece of memory; `next` is that of the next spare one.
struct piece {
    struct piece *next;
    size_t bytes;
} __attribute__((aligned(16)));

static size_t used;
static struct piece *spare;

void *malloc(size_t n) {
    if (n > HEAP_BYTES) return NULL;
    n = (n + 15) & ~(size_t)15;
    for (struct piece **at = &spare; *at; at = &(*at)->next)
        if ((*at)->bytes >= n) {
            struct piece *found = *at;
            *at = found->next;
            return found + 1;
        }
    if (n + sizeof(struct piece) > HEAP_BYTES - used) return NULL;
    struct piece *made = (struct piece *)(HEAP + used);
    made->bytes = n;
    used += n + sizeof(struct piece);
    return made + 1;
}

void free(void *at) {
    if (!at) return;
    struct piece *old = (struct piece *)at - 1;
    old->next = spare;
    spare = old;
}

void *calloc(size_t count, size_t n) {
    if (n && count > HEAP_BYTES / n) return NULL;
    void *made = malloc(count * n);
    return made ? memset(made, 0, count * n) : NULL;
}

void *realloc(void *at, size_t n) {
    if (!at) return malloc(n);
    size_t had = ((struct piece *)at - 1)->bytes;
    if (n <= had) return at;
    void *made = malloc(n);
    if (made) {
        memcpy(made, at, had);
        free(at);
    }
    return made;
}

// ---- output

int putchar(int byte) { return cfi_put(byte) ? (unsigned char)byte : EOF; }

int puts(const char *text) {
    while (*text) putchar(*text++);
    return putchar('\n');
}

// Where formatted text goes: into `room` bytes at `to`, or to the guest's output where `to` is null.
struct sink {
    char *to;
    size_t room;
    int count;
};

static void emit(struct sink *out, char byte) {
    if (!out->to)
        putchar(byte);
    else if ((size_t)out->count < out->room)
        out->to[out->count] = byte;
    out->count++;
}

static void fill(struct sink *out, char byte, int times) {
    while (times-- > 0) emit(out, byte);
}

// What stands between a `%` and its letter.
struct form {
    bool left, zeros, plus, space, other;
    int width, precision; // a precision of -1 is none
    int longs;            // 2 for ll, 1 for l, -1 for h, -2 for hh
};

static int number_of(const char **at, va_list *rest) {
    int n = 0;
    if (**at == '*') {
        ++*at;
        return va_arg(*rest, int);
    }
    while (**at >= '0' && **at <= '9') n = n * 10 + (*(*at)++ - '0');
    return n;
}

static void read_flags(struct form *f, const char **at) {
    for (;; ++*at) switch (**at) {
        case '-': f->left = true; break;
        case '0': f->zeros = true; break;
        case '+': f->plus = true; break;
        case ' ': f->space = true; break;
        case '#': f->other = true; break;
        default: return;
        }
}

static struct form read_form(const char **at, va_list *rest) {
    struct form f = {.precision = -1};
    read_flags(&f, at);
    f.width = number_of(at, rest);
    if (f.width < 0) {
        f.left = true;
        f.width = -f.width;
    }
    if (**at == '.') {
        ++*at;
        f.precision = number_of(at, rest);
    }
    for (;; ++*at) switch (**at) {
        case 'l': f.longs++; break;
        case 'h': f.longs--; break;
        case 'j': f.longs = 2; break;
        case 'z':
        case 't': f.longs = 1; break;
        default: return f;
        }
}

// Text between blanks that make up the width.
static void put_text(struct sink *out, const struct form *f, const char *text, int n) {
    if (!f->left) fill(out, ' ', f->width - n);
    for (int k = 0; k < n; k++) emit(out, text[k]);
    if (f->left) fill(out, ' ', f->width - n);
}

// A number in a base, behind `before`, which is a sign or what tells the base.
static void put_number(struct sink *out, const struct form *f, uint64_t n, unsigned base, const char *letters,
                       const char *before) {
    char digits[24];
    int count = 0, zeros, blanks, sign = (int)strlen(before);
    for (; n; n /= base) digits[count++] = letters[n % base];
    zeros = (f->precision < 0 ? 1 : f->precision) - count;
    if (f->precision < 0 && f->zeros && !f->left && f->width - sign - count > zeros) zeros = f->width - sign - count;
    if (zeros < 0) zeros = 0;
    blanks = f->width - sign - zeros - count;
    if (!f->left) fill(out, ' ', blanks);
    while (*before) emit(out, *before++);
    fill(out, '0', zeros);
    while (count) emit(out, digits[--count]);
    if (f->left) fill(out, ' ', blanks);
}

static int64_t signed_of(const struct form *f, va_list *rest) {
    if (f->longs >= 2) return va_arg(*rest, long long);
    int n = f->longs == 1 ? (int)va_arg(*rest, long) : va_arg(*rest, int);
    return f->longs == -1 ? (short)n : f->longs <= -2 ? (signed char)n : n;
}

static uint64_t unsigned_of(const struct form *f, va_list *rest) {
    if (f->longs >= 2) return va_arg(*rest, unsigned long long);
    unsigned n = f->longs == 1 ? (unsigned)va_arg(*rest, unsigned long) : va_arg(*rest, unsigned);
    return f->longs == -1 ? (unsigned short)n : f->longs <= -2 ? (unsigned char)n : n;
}

static void put_signed(struct sink *out, const struct form *f, va_list *rest) {
    int64_t n = signed_of(f, rest);
    const char *sign = n < 0 ? "-" : f->plus ? "+" : f->space ? " " : "";
    put_number(out, f, n < 0 ? -(uint64_t)n : (uint64_t)n, 10, "0123456789", sign);
}

static void put_hex(struct sink *out, const struct form *f, va_list *rest, char letter) {
    uint64_t n = unsigned_of(f, rest);
    const char *before = f->other && n ? letter == 'x' ? "0x" : "0X" : "";
    put_number(out, f, n, 16, letter == 'x' ? "0123456789abcdef" : "0123456789ABCDEF", before);
}

static void put_string(struct sink *out, const struct form *f, const char *text) {
    int n = 0;
    while ((f->precision < 0 || n < f->precision) && text[n]) n++;
    put_text(out, f, text, n);
}

// One conversion, whose letter stands at `at`.
static void convert(struct sink *out, const struct form *f, const char *at, va_list *rest) {
    switch (*at) {
    case 'c': put_text(out, f, &(char){(char)va_arg(*rest, int)}, 1); break;
    case 's': put_string(out, f, va_arg(*rest, const char *)); break;
    case 'd':
    case 'i': put_signed(out, f, rest); break;
    case 'u': put_number(out, f, unsigned_of(f, rest), 10, "0123456789", ""); break;
    case 'o': put_number(out, f, unsigned_of(f, rest), 8, "01234567", ""); break;
    case 'x':
    case 'X': put_hex(out, f, rest, *at); break;
    case 'p': put_number(out, f, (uintptr_t)va_arg(*rest, void *), 16, "0123456789abcdef", "0x"); break;
    default: emit(out, *at);
    }
}

static int format_into(struct sink *out, const char *format, va_list rest) {
    va_list left;
    va_copy(left, rest);
    for (; *format; format++) {
        if (*format != '%') {
            emit(out, *format);
            continue;
        }
        format++;
        struct form f = read_form(&format, &left);
        if (!*format) break;
        convert(out, &f, format, &left);
    }
    va_end(left);
    return out->count;
}

int vprintf(const char *format, va_list rest) { return format_into(&(struct sink){0}, format, rest); }

int vsnprintf(char *to, size_t room, const char *format, va_list rest) {
    char none;
    struct sink out = {room ? to : &none, room ? room - 1 : 0, 0};
    int count = format_into(&out, format, rest);
    if (room) to[(size_t)count < room ? (size_t)count : room - 1] = 0;
    return count;
}

int printf(const char *format, ...) {
    va_list rest;
    va_start(rest, format);
    int count = vprintf(format, rest);
    va_end(rest);
    return count;
}

int snprintf(char *to, size_t room, const char *format, ...) {
    va_list rest;
    va_start(rest, format);
    int count = vsnprintf(to, room, format, rest);
    va_end(rest);
    return count;
}
