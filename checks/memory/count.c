/* Counts what a program asks of malloc and realloc, in parts. A request of MARK + n octets, n from 1, begins the part n; a
   request of MARK ends it. What stands outside of those is part 0. At the end of a part, and of the run, a line
   `part requests octets greatest` goes to the file descriptor 9. Preloaded by checks/memory.sh. */
#define _GNU_SOURCE
#include <dlfcn.h>
#include <stddef.h>
#include <stdio.h>
#include <unistd.h>

#define MARK 77000000u
#define PARTS 100u

static void *(*real_malloc)(size_t);
static void *(*real_realloc)(void *, size_t);

struct part {
    unsigned number;
    unsigned long requests, octets, greatest;
};

static struct part outside, inside;

static void count(size_t size)
{
    struct part *part = inside.number ? &inside : &outside;
    part->requests += 1;
    part->octets += size;
    if (size > part->greatest)
        part->greatest = size;
}

static void tell(const struct part *part)
{
    char line[100];
    int length = snprintf(line, sizeof line, "%u %lu %lu %lu\n", part->number, part->requests, part->octets, part->greatest);
    if (write(9, line, (size_t)length) != length)
        _exit(70);
}

static void mark(unsigned number)
{
    if (inside.number)
        tell(&inside);
    inside = (struct part){.number = number};
}

__attribute__((destructor)) static void end(void)
{
    tell(&outside);
}

void *malloc(size_t size)
{
    if (!real_malloc)
        real_malloc = (void *(*)(size_t))dlsym(RTLD_NEXT, "malloc");
    if (size >= MARK && size < MARK + PARTS)
        mark((unsigned)(size - MARK));
    else
        count(size);
    return real_malloc(size);
}

void *realloc(void *old, size_t size)
{
    if (!real_realloc)
        real_realloc = (void *(*)(void *, size_t))dlsym(RTLD_NEXT, "realloc");
    count(size);
    return real_realloc(old, size);
}
