/* Put before a program by LD_PRELOAD: the allocation whose number the variable REFUSED has, counted from 1 over all
   threads, gets no memory; with REFUSED_FROM it and all behind it. 0 refuses none. How many were made stands in the first
   eight bytes of the file that REFUSED_COUNT names, if it does. */
#include <errno.h>
#include <fcntl.h>
#include <stdatomic.h>
#include <stdlib.h>
#include <sys/mman.h>
#include <unistd.h>

extern void *__libc_malloc(size_t);
extern void *__libc_calloc(size_t, size_t);
extern void *__libc_realloc(void *, size_t);
extern void *__libc_memalign(size_t, size_t);

static atomic_long own;
static atomic_long *made = &own;
static long refused;
static int all_behind;

__attribute__((constructor)) static void begin(void)
{
    const char *one = getenv("REFUSED"), *from = getenv("REFUSED_FROM"), *count = getenv("REFUSED_COUNT");
    all_behind = from != NULL;
    refused = atol(from ? from : one ? one : "0");
    int file = count ? open(count, O_RDWR) : -1;
    if (file >= 0) {
        void *at = mmap(NULL, sizeof own, PROT_READ | PROT_WRITE, MAP_SHARED, file, 0);
        if (at != MAP_FAILED)
            made = at;
        close(file);
    }
}

static int is_refused(void)
{
    long number = atomic_fetch_add(made, 1) + 1;
    if (refused == 0 || (all_behind ? number < refused : number != refused))
        return 0;
    errno = ENOMEM;
    return 1;
}

void *malloc(size_t size)
{
    return is_refused() ? NULL : __libc_malloc(size);
}

void *calloc(size_t count, size_t size)
{
    return is_refused() ? NULL : __libc_calloc(count, size);
}

void *realloc(void *at, size_t size)
{
    return is_refused() ? NULL : __libc_realloc(at, size);
}

void *aligned_alloc(size_t align, size_t size)
{
    return is_refused() ? NULL : __libc_memalign(align, size);
}

int posix_memalign(void **at, size_t align, size_t size)
{
    if (is_refused())
        return ENOMEM;
    *at = __libc_memalign(align, size);
    return *at ? 0 : ENOMEM;
}
