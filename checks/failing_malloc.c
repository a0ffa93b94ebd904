/*
 * For `checks/dlltool` and `checks/memory`, by LD_PRELOAD: the allocation of the number in FAIL_AT is refused, counted
 * from 1. A program that ends before it gets there says so on standard output.
 */
#include <errno.h>
#include <stdlib.h>
#include <unistd.h>

extern void *__libc_malloc(size_t size);
extern void *__libc_realloc(void *block, size_t size);

static const char NOT_REACHED[] = "not reached\n";
static long left = -1;

static int fails_now(void)
{
    if (left < 0)
        left = atol(getenv("FAIL_AT"));
    if (left == 0 || --left > 0)
        return 0;
    errno = ENOMEM;
    return 1;
}

void *malloc(size_t size)
{
    return fails_now() ? NULL : __libc_malloc(size);
}

void *realloc(void *block, size_t size)
{
    return fails_now() ? NULL : __libc_realloc(block, size);
}

__attribute__((destructor)) static void tell(void)
{
    if (left != 0 && write(1, NOT_REACHED, sizeof NOT_REACHED - 1) < 0)
        _exit(9);
}
