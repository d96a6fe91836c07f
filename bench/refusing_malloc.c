/* Loaded before a program (LD_PRELOAD), it counts the program's requests for memory, and refuses one of them.
 *
 * REFUSED_REQUEST: the number of the request that is refused, from 1 on; 0 or nothing: none.
 * REQUEST_COUNT:   a file of 8 bytes, in which the count stands while the program runs and behind its end, however that comes.
 */
#define _GNU_SOURCE
#include <dlfcn.h>
#include <errno.h>
#include <fcntl.h>
#include <stdatomic.h>
#include <stdint.h>
#include <stdlib.h>
#include <string.h>
#include <sys/mman.h>
#include <unistd.h>

static _Atomic uint64_t own_count;
static _Atomic uint64_t *count = &own_count;
static uint64_t refused;

static void *(*real_malloc)(size_t);
static void *(*real_calloc)(size_t, size_t);
static void *(*real_realloc)(void *, size_t);
static int (*real_posix_memalign)(void **, size_t, size_t);
static void *(*real_aligned_alloc)(size_t, size_t);

/* What dlsym asks for while the real functions are not found yet. */
static char early[65536];
static size_t early_used;

static void *early_memory(size_t size)
{
    size = (size + 15) & ~(size_t)15;
    if (size > sizeof early - early_used)
        return NULL;
    early_used += size;
    return early + early_used - size;
}

__attribute__((constructor)) static void start(void)
{
    const char *number = getenv("REFUSED_REQUEST"), *path = getenv("REQUEST_COUNT");
    real_malloc = dlsym(RTLD_NEXT, "malloc");
    real_calloc = dlsym(RTLD_NEXT, "calloc");
    real_realloc = dlsym(RTLD_NEXT, "realloc");
    real_posix_memalign = dlsym(RTLD_NEXT, "posix_memalign");
    real_aligned_alloc = dlsym(RTLD_NEXT, "aligned_alloc");
    if (path) {
        int file = open(path, O_RDWR);
        void *at = file < 0 ? MAP_FAILED : mmap(NULL, 8, PROT_READ | PROT_WRITE, MAP_SHARED, file, 0);
        if (at != MAP_FAILED)
            count = at;
        if (file >= 0)
            close(file);
    }
    atomic_store(count, 0);
    refused = number ? strtoull(number, NULL, 10) : 0;
}

/* Whether this request is the one that is refused. */
static int is_refused(void)
{
    if (atomic_fetch_add(count, 1) + 1 != refused)
        return 0;
    errno = ENOMEM;
    return 1;
}

void *malloc(size_t size)
{
    if (!real_malloc)
        return early_memory(size);
    return is_refused() ? NULL : real_malloc(size);
}

void *calloc(size_t many, size_t size)
{
    if (!real_calloc)
        return early_memory(many * size);
    return is_refused() ? NULL : real_calloc(many, size);
}

void *realloc(void *old, size_t size)
{
    if (!real_realloc)
        return early_memory(size);
    if (is_refused())
        return NULL;
    if ((char *)old >= early && (char *)old < early + sizeof early) {
        void *new = real_malloc(size);
        size_t left = (size_t)(early + sizeof early - (char *)old);
        return new ? memcpy(new, old, size < left ? size : left) : NULL;
    }
    return real_realloc(old, size);
}

int posix_memalign(void **at, size_t aligned, size_t size)
{
    return is_refused() ? ENOMEM : real_posix_memalign(at, aligned, size);
}

void *aligned_alloc(size_t aligned, size_t size)
{
    return is_refused() ? NULL : real_aligned_alloc(aligned, size);
}

void free(void *old)
{
    static void (*real_free)(void *);
    if ((char *)old >= early && (char *)old < early + sizeof early)
        return;
    if (!real_free)
        real_free = dlsym(RTLD_NEXT, "free");
    real_free(old);
}
