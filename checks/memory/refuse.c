/* Refuses one request for memory: the one of the number in the environment's REFUSED, counted from 1 over malloc and realloc.
   At the end of a run in which it wasn't reached nothing was refused, and the descriptor 9 gets no octet; else it gets one.
   Preloaded by checks/runs.sh. */
#define _GNU_SOURCE
#include <dlfcn.h>
#include <errno.h>
#include <stddef.h>
#include <stdlib.h>
#include <unistd.h>

static unsigned long made;

static int is_refused(void)
{
    const char *number = getenv("REFUSED");
    made += 1;
    if (!number || made != strtoul(number, NULL, 10))
        return 0;
    if (write(9, "!", 1) != 1)
        _exit(70);
    errno = ENOMEM;
    return 1;
}

void *malloc(size_t size)
{
    static void *(*real)(size_t);
    if (!real)
        real = (void *(*)(size_t))dlsym(RTLD_NEXT, "malloc");
    return is_refused() ? NULL : real(size);
}

void *realloc(void *old, size_t size)
{
    static void *(*real)(void *, size_t);
    if (!real)
        real = (void *(*)(void *, size_t))dlsym(RTLD_NEXT, "realloc");
    return is_refused() ? NULL : real(old, size);
}
