/* A machine that refuses. Preloaded before the program, it lets one call fail: the read of standard
   input whose number is READ_FAILS, the write to standard output whose number is WRITE_FAILS, the sync
   of any file whose number is SYNC_FAILS, or the allocation whose number is MEMORY_FAILS, each counted
   from 1. From the allocation MEMORY_ENDS on all fail. With SHORT, each read and write moves at most a
   byte, but not to standard error. All other calls go through. tests/conftest.py and tests/campaign
   have it built. */
#define _GNU_SOURCE
#include <dlfcn.h>
#include <errno.h>
#include <stdlib.h>
#include <sys/types.h>

extern void *__libc_malloc(size_t size);
extern void *__libc_calloc(size_t count, size_t size);
extern void *__libc_realloc(void *old, size_t size);
extern void *__libc_memalign(size_t alignment, size_t size);

static long reads, writes, syncs, allocations;

static int fails(const char *name, long *calls, int error)
{
    const char *wanted = getenv(name);
    if (wanted == NULL || ++*calls != atol(wanted))
        return 0;
    errno = error;
    return 1;
}

static int no_memory(void)
{
    const char *ends = getenv("MEMORY_ENDS");
    if (ends == NULL)
        return fails("MEMORY_FAILS", &allocations, ENOMEM);
    errno = ENOMEM;
    return ++allocations >= atol(ends);
}

/* How many bytes a call moves. */
static size_t moved(int file, size_t size)
{
    return file != 2 && size > 1 && getenv("SHORT") != NULL ? 1 : size;
}

ssize_t read(int file, void *bytes, size_t size)
{
    if (file == 0 && fails("READ_FAILS", &reads, EIO))
        return -1;
    ssize_t (*next)(int, void *, size_t) = dlsym(RTLD_NEXT, "read");
    return next(file, bytes, moved(file, size));
}

ssize_t write(int file, const void *bytes, size_t size)
{
    if (file == 1 && fails("WRITE_FAILS", &writes, EIO))
        return -1;
    ssize_t (*next)(int, const void *, size_t) = dlsym(RTLD_NEXT, "write");
    return next(file, bytes, moved(file, size));
}

int fsync(int file)
{
    if (fails("SYNC_FAILS", &syncs, EIO))
        return -1;
    int (*next)(int) = dlsym(RTLD_NEXT, "fsync");
    return next(file);
}

void *malloc(size_t size)
{
    return no_memory() ? NULL : __libc_malloc(size);
}

void *calloc(size_t count, size_t size)
{
    return no_memory() ? NULL : __libc_calloc(count, size);
}

void *realloc(void *old, size_t size)
{
    return no_memory() ? NULL : __libc_realloc(old, size);
}

void *aligned_alloc(size_t alignment, size_t size)
{
    return no_memory() ? NULL : __libc_memalign(alignment, size);
}

int posix_memalign(void **to, size_t alignment, size_t size)
{
    *to = aligned_alloc(alignment, size);
    return *to == NULL ? ENOMEM : 0;
}
