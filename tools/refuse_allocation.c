/*
 * Refuses one allocation of a program: loaded before the C library, by LD_PRELOAD, it fails one call for
 * memory, and answers every other one as the C library does.
 *
 *   ALLOCATION_REFUSED  which allocation is refused, counted from 1; 0 or unset: none
 *   ALLOCATION_COUNT    a file, which always has the number of allocations so far, as one 8-byte number of this
 *                   machine; unset: none
 *
 * The number is written when it changes: a program with threads may end by _exit, which runs nothing after it.
 *
 * An allocation is a call of malloc, calloc, posix_memalign or aligned_alloc, and one of realloc that
 * requests memory: realloc to size 0 only frees. Allocations before main are counted too, except those of
 * the start of the process itself before this file is ready.
 *
 * The calls are passed to glibc's own names. A search for them by dlsym could itself allocate.
 */
#include <errno.h>
#include <fcntl.h>
#include <stdatomic.h>
#include <stddef.h>
#include <stdint.h>
#include <stdlib.h>
#include <sys/mman.h>
#include <unistd.h>

extern void *__libc_malloc(size_t size);
extern void *__libc_calloc(size_t count, size_t size);
extern void *__libc_realloc(void *old, size_t size);
extern void *__libc_memalign(size_t alignment, size_t size);

typedef _Atomic uint64_t counter;

static counter own; /* If no file is named. */
static counter *allocations = &own; /* Written once, before main, as is the next one. */
static uint64_t refused;

/* The number in a file, or the program's own if the file cannot be used: its reader then finds none. */
static counter *number_in(const char *name)
{
    int file = open(name, O_RDWR | O_CREAT | O_TRUNC, 0644);
    void *place = MAP_FAILED;
    if (file < 0)
        return &own;
    if (ftruncate(file, sizeof(counter)) == 0)
        place = mmap(NULL, sizeof(counter), PROT_READ | PROT_WRITE, MAP_SHARED, file, 0);
    close(file);
    return place == MAP_FAILED ? &own : place;
}

__attribute__((constructor)) static void begin(void)
{
    const char *which = getenv("ALLOCATION_REFUSED");
    const char *name = getenv("ALLOCATION_COUNT");
    if (which)
        refused = strtoull(which, NULL, 10);
    if (name)
        allocations = number_in(name);
    atomic_store(allocations, 0);
}

/* Counts an allocation, and says whether it is the one that is refused. */
static int is_refused(void)
{
    return atomic_fetch_add(allocations, 1) + 1 == refused;
}

static void *no_memory(void)
{
    errno = ENOMEM;
    return NULL;
}

void *malloc(size_t size)
{
    return is_refused() ? no_memory() : __libc_malloc(size);
}

void *calloc(size_t count, size_t size)
{
    return is_refused() ? no_memory() : __libc_calloc(count, size);
}

void *realloc(void *old, size_t size)
{
    if (old && size == 0)
        return __libc_realloc(old, size);
    return is_refused() ? no_memory() : __libc_realloc(old, size);
}

void *aligned_alloc(size_t alignment, size_t size)
{
    return is_refused() ? no_memory() : __libc_memalign(alignment, size);
}

int posix_memalign(void **place, size_t alignment, size_t size)
{
    void *memory;
    if (alignment % sizeof(void *) != 0 || alignment == 0 || (alignment & (alignment - 1)) != 0)
        return EINVAL;
    if (is_refused())
        return ENOMEM;
    memory = __libc_memalign(alignment, size);
    if (!memory)
        return ENOMEM;
    *place = memory;
    return 0;
}
