// Types of functions, each of a function and of a call by a pointer: `TYPE` makes the function `NAME` and the function
// `call_NAME`, whose one call has the same type. types.txt has the number of each, as Clang's own check compares it.
#include <stdarg.h>
#include <stdbool.h>
#include <stddef.h>
#include <stdint.h>

#define TYPE(name, result, parameters, arguments)                                                                      \
    result name parameters { __builtin_trap(); }                                                                       \
    void call_##name(result(*volatile *at) parameters) { (*at) arguments; }

struct defined {
    int n;
};
struct declared;

union either {
    int n;
    char c;
};

enum shape { ROUND, FLAT };

typedef int number;
typedef int (*unary)(int);

typedef struct {
    int n;
} unnamed;

extern struct defined some;
extern union either one;
extern va_list rest;
extern unnamed other;

TYPE(none, void, (void), ())
TYPE(gives_int, int, (void), ())
TYPE(of_int, int, (int a), (1))
TYPE(of_number, number, (number a), (1))
TYPE(of_const, int, (const int a), (1))
TYPE(of_long, long, (long a), (1))
TYPE(of_unsigned, unsigned, (unsigned a), (1))
TYPE(of_long_long, long long, (long long a), (1))
TYPE(of_char, char, (char a), (1))
TYPE(of_signed_char, signed char, (signed char a), (1))
TYPE(of_unsigned_char, unsigned char, (unsigned char a), (1))
TYPE(of_short, short, (short a), (1))
TYPE(of_bool, bool, (bool a), (1))
TYPE(of_uint32, uint32_t, (uint32_t a), (1))
TYPE(of_size, size_t, (size_t a), (1))
TYPE(of_float, float, (float a), (1))
TYPE(of_double, double, (double a), (1))
TYPE(of_enum, enum shape, (enum shape a), (FLAT))
TYPE(of_pointer, void *, (void *a), (0))
TYPE(of_const_pointer, const void *, (const void *a), (0))
TYPE(of_text, char *, (const char *a), (0))
TYPE(of_restrict, int, (char *restrict a), (0))
TYPE(of_volatile, int, (volatile int *a), (0))
TYPE(of_array, int, (int a[4]), (0))
TYPE(of_rows, int, (int (*a)[4]), (0))
TYPE(of_structure, struct defined, (struct defined a), (some))
TYPE(of_defined, int, (struct defined * a), (0))
TYPE(of_declared, int, (struct declared * a), (0))
TYPE(of_union, union either, (union either a), (one))
TYPE(of_unnamed, int, (unnamed a), (other))
TYPE(of_function, int, (int (*f)(int)), (0))
TYPE(gives_function, unary, (unary f, int a), (0, 1))
TYPE(of_maker, int, (unary(*make)(unary)), (0))
TYPE(of_list, int, (const char *form, va_list a), (0, rest))
TYPE(of_many, int, (const char *form, ...), (0, 1))
TYPE(compares, int, (const void *a, const void *b), (0, 0))
TYPE(of_ten, int, (int a, int b, int c, int d, int e, int f, int g, int h, int i, int j),
     (1, 2, 3, 4, 5, 6, 7, 8, 9, 10))
