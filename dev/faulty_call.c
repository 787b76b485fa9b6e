/* Laid over the call by which a program starts threads: that of the number in FAULTY_AT, counted from 1, is refused with EAGAIN,
 * and so are all behind it, unless FAULTY_ONE is set. How many were asked for is kept in the first eight bytes of the file of
 * FAULTY_COUNT. dev/few_threads compiles it. */
#define _GNU_SOURCE
#include <dlfcn.h>
#include <errno.h>
#include <fcntl.h>
#include <pthread.h>
#include <stdatomic.h>
#include <stdlib.h>
#include <sys/mman.h>
#include <unistd.h>

static atomic_long before;
static atomic_long *count = &before;
static long at;
static int one;

static int (*next_create)(pthread_t *, const pthread_attr_t *, void *(*)(void *), void *);

static void __attribute__((constructor)) begin(void) {
    const char *number = getenv("FAULTY_AT"), *path = getenv("FAULTY_COUNT");
    next_create = dlsym(RTLD_NEXT, "pthread_create");
    int file = path ? open(path, O_RDWR | O_CREAT, 0600) : -1;
    if (file >= 0 && ftruncate(file, sizeof *count) == 0) {
        void *kept = mmap(NULL, sizeof *count, PROT_READ | PROT_WRITE, MAP_SHARED, file, 0);
        count = kept == MAP_FAILED ? &before : kept;
    }
    if (file >= 0)
        close(file);
    one = getenv("FAULTY_ONE") != NULL;
    at = number ? atol(number) : 0;
}

int pthread_create(pthread_t *thread, const pthread_attr_t *how, void *(*work)(void *), void *given) {
    long turn = atomic_fetch_add(count, 1) + 1;
    if (at && (turn == at || (turn > at && !one)))
        return EAGAIN;
    return next_create(thread, how, work, given);
}
