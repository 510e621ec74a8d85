// The part of <stdlib.h> that std.c has.
#pragma once
#include <stddef.h>

#define EXIT_SUCCESS 0
#define EXIT_FAILURE 1

void *malloc(size_t n);
void *calloc(size_t count, size_t n);
void *realloc(void *at, size_t n);
void free(void *at);
_Noreturn void exit(int code);
_Noreturn void abort(void);
int abs(int n);
