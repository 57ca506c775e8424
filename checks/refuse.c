/* Refuses requests for memory in the program into which this is loaded (LD_PRELOAD). checks/memory.py builds and uses it.

   The file that REFUSE names has four counts of 64 bits: the number of the first request that is refused, from 1 on (0 for
   none), and how many are from there on; then, written here, how many requests there were, and how many were refused. */
#define _GNU_SOURCE
#include <dlfcn.h>
#include <fcntl.h>
#include <stdint.h>
#include <stdlib.h>
#include <sys/mman.h>
#include <unistd.h>

static struct {
    uint64_t first, many, made, refused;
} *counts;

__attribute__((constructor)) static void start(void)
{
    const char *name = getenv("REFUSE");
    int file = name ? open(name, O_RDWR | O_CLOEXEC) : -1;
    void *place = file < 0 ? MAP_FAILED : mmap(NULL, sizeof *counts, PROT_READ | PROT_WRITE, MAP_SHARED, file, 0);
    /* Without the counts nothing could be told: the check sees that there were no requests. */
    if (place != MAP_FAILED)
        counts = place;
    if (file >= 0)
        close(file);
}

static int is_refused(void)
{
    if (!counts)
        return 0;
    counts->made++;
    if (counts->made < counts->first || counts->first == 0 || counts->made - counts->first >= counts->many)
        return 0;
    counts->refused++;
    return 1;
}

void *malloc(size_t size)
{
    static void *(*next)(size_t);
    if (!next)
        next = (void *(*)(size_t))dlsym(RTLD_NEXT, "malloc");
    return is_refused() ? NULL : next(size);
}

void *realloc(void *old, size_t size)
{
    static void *(*next)(void *, size_t);
    if (!next)
        next = (void *(*)(void *, size_t))dlsym(RTLD_NEXT, "realloc");
    return is_refused() ? NULL : next(old, size);
}
