/* Stands before the C library's allocation, and refuses the call whose number, from 1, is in REFUSE. With COUNT set, the
 * number of calls is written into the file of that name when the program ends. */
#define _GNU_SOURCE
#include <errno.h>
#include <stdatomic.h>
#include <stdio.h>
#include <stdlib.h>
#include <sys/syscall.h>
#include <unistd.h>

static atomic_long calls;
static atomic_long refused = -1;

/* Whether this call is the one to be refused, which then tells why. */
static int is_refused(void)
{
    if (refused < 0) {
        const char *number = getenv("REFUSE");
        refused = number ? atol(number) : 0;
    }
    if (atomic_fetch_add(&calls, 1) + 1 != refused)
        return 0;
    errno = ENOMEM;
    return 1;
}

extern void *__libc_malloc(size_t);
extern void *__libc_calloc(size_t, size_t);
extern void *__libc_realloc(void *, size_t);
extern void *__libc_memalign(size_t, size_t);

void *malloc(size_t size)
{
    return is_refused() ? NULL : __libc_malloc(size);
}

void *calloc(size_t count, size_t size)
{
    return is_refused() ? NULL : __libc_calloc(count, size);
}

void *realloc(void *old, size_t size)
{
    return is_refused() ? NULL : __libc_realloc(old, size);
}

void *aligned_alloc(size_t align, size_t size)
{
    return is_refused() ? NULL : __libc_memalign(align, size);
}

int posix_memalign(void **out, size_t align, size_t size)
{
    void *found = is_refused() ? NULL : __libc_memalign(align, size);
    if (!found)
        return ENOMEM;
    *out = found;
    return 0;
}

/* The program ends by this call, which runs nothing else. */
void _exit(int status)
{
    long count = atomic_load(&calls);
    const char *name = getenv("COUNT");
    FILE *file = name ? fopen(name, "w") : NULL;
    if (file) {
        fprintf(file, "%ld\n", count);
        fclose(file);
    }
    syscall(SYS_exit_group, status);
    __builtin_unreachable();
}
