/* Laid over the allocator of a program: the allocation of the number in NO_MEMORY_AT finds no memory, counted from 1. With
 * NO_MEMORY_SPAN so many from it on find none. How many there were is kept in the first eight bytes of the file of NO_MEMORY_COUNT.
 * A piece that is to grow is an allocation too, and so is what the C library sets aside for a thread. dev/memory compiles it. */
#include <errno.h>
#include <fcntl.h>
#include <stdatomic.h>
#include <stdlib.h>
#include <sys/mman.h>
#include <unistd.h>

extern void *__libc_malloc(size_t size);
extern void *__libc_calloc(size_t count, size_t size);
extern void *__libc_realloc(void *old, size_t size);
extern void *__libc_memalign(size_t alignment, size_t size);

static atomic_long before;
static atomic_long *count = &before;
static long at, span = 1;

static void __attribute__((constructor)) begin(void) {
    const char *number = getenv("NO_MEMORY_AT"), *path = getenv("NO_MEMORY_COUNT"), *length = getenv("NO_MEMORY_SPAN");
    int file = path ? open(path, O_RDWR | O_CREAT, 0600) : -1;
    if (file >= 0 && ftruncate(file, sizeof *count) == 0) {
        void *kept = mmap(NULL, sizeof *count, PROT_READ | PROT_WRITE, MAP_SHARED, file, 0);
        count = kept == MAP_FAILED ? &before : kept;
    }
    if (file >= 0)
        close(file);
    span = length ? atol(length) : 1;
    at = number ? atol(number) : 0;
}

static int is_refused(void) {
    long turn = atomic_fetch_add(count, 1) + 1;
    return at && turn >= at && turn - at < span;
}

static void *refused(void) {
    errno = ENOMEM;
    return NULL;
}

void *malloc(size_t size) {
    return is_refused() ? refused() : __libc_malloc(size);
}

void *calloc(size_t times, size_t size) {
    return is_refused() ? refused() : __libc_calloc(times, size);
}

void *realloc(void *old, size_t size) {
    return is_refused() ? refused() : __libc_realloc(old, size);
}

void *memalign(size_t alignment, size_t size) {
    return is_refused() ? refused() : __libc_memalign(alignment, size);
}

void *aligned_alloc(size_t alignment, size_t size) {
    return is_refused() ? refused() : __libc_memalign(alignment, size);
}

int posix_memalign(void **made, size_t alignment, size_t size) {
    if (is_refused())
        return ENOMEM;
    void *piece = __libc_memalign(alignment, size);
    if (piece == NULL)
        return ENOMEM;
    *made = piece;
    return 0;
}
