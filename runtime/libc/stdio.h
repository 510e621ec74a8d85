// The part of <stdio.h> that std.c has: output alone, without floating point in formats.
#pragma once
#include <stdarg.h>
#include <stddef.h>

#define EOF (-1)

int putchar(int byte);
int puts(const char *text);
int printf(const char *format, ...) __attribute__((format(printf, 1, 2)));
int vprintf(const char *format, va_list rest) __attribute__((format(printf, 1, 0)));
int snprintf(char *to, size_t room, const char *format, ...) __attribute__((format(printf, 3, 4)));
int vsnprintf(char *to, size_t room, const char *format, va_list rest) __attribute__((format(printf, 3, 0)));
