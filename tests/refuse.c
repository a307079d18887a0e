/* Loaded before the C library by tests/hostile: counts allocations, and refuses one of them. */
#include <errno.h>
#include <fcntl.h>
#include <stddef.h>
#include <stdlib.h>
#include <sys/mman.h>

extern void *__libc_malloc(size_t);
extern void *__libc_calloc(size_t, size_t);
extern void *__libc_realloc(void *, size_t);
extern void *__libc_memalign(size_t, size_t);

/* How many there were, in the file that REFUSE_COUNT names, and the number of the one to refuse, from 1. */
static long none;
static long *count = &none;
static long refused;

__attribute__((constructor)) static void begin(void) {
    const char *number = getenv("REFUSE"), *path = getenv("REFUSE_COUNT");
    int file = path ? open(path, O_RDWR) : -1;
    if (file >= 0) {
        void *page = mmap(NULL, sizeof(long), PROT_READ | PROT_WRITE, MAP_SHARED, file, 0);
        if (page != MAP_FAILED) count = page;
    }
    *count = 0;
    refused = number ? atol(number) : 0;
}

static int is_refused(void) {
    if (__atomic_add_fetch(count, 1, __ATOMIC_RELAXED) != refused) return 0;
    errno = ENOMEM;
    return 1;
}

void *malloc(size_t size) { return is_refused() ? NULL : __libc_malloc(size); }
void *calloc(size_t n, size_t size) { return is_refused() ? NULL : __libc_calloc(n, size); }
void *realloc(void *old, size_t size) { return is_refused() ? NULL : __libc_realloc(old, size); }
void *memalign(size_t align, size_t size) { return is_refused() ? NULL : __libc_memalign(align, size); }
void *aligned_alloc(size_t align, size_t size) { return is_refused() ? NULL : __libc_memalign(align, size); }

int posix_memalign(void **at, size_t align, size_t size) {
    if (is_refused()) return ENOMEM;
    *at = __libc_memalign(align, size);
    return *at ? 0 : ENOMEM;
}
