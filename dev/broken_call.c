/* Laid over the calls by which a program reaches files: at the call of the number in BROKEN_AT, counted from 1, comes what
 * BROKEN_HOW says.
 *
 *     kill    the program ends before the call
 *     part    the program ends after it; of a write half of the bytes are written
 *     fail    the call does nothing and answers the error of the number in BROKEN_ERROR, else EIO
 *     none    a write takes no byte, and answers so; any other call is as it is
 *
 * With BROKEN_STEP each read and write moves at most so many bytes. With BROKEN_STREAMS calls on standard input, output and
 * error are counted too, and else not. In the file of BROKEN_COUNT stand eight bytes each: how many calls there were, and of the
 * broken one the letter of its kind (`d` is an fsync of a folder), its file, how many renamings went before it, and how many bytes were written to standard
 * output then; then the end of its path, where it has one. dev/puts and dev/devices compile it. */
#define _GNU_SOURCE
#include <dlfcn.h>
#include <errno.h>
#include <fcntl.h>
#include <signal.h>
#include <stdarg.h>
#include <stdatomic.h>
#include <stdlib.h>
#include <string.h>
#include <sys/mman.h>
#include <sys/stat.h>
#include <unistd.h>

struct told {
    atomic_long count;
    long kind, file, renamed, written;
    char path[64];
};

static struct told before;
static struct told *told = &before;
static long at, error, step;
static atomic_long renamed, written;
static char how;
static int ready, streams;

static int (*next_open)(const char *, int, ...);
static int (*next_close)(int);
static ssize_t (*next_read)(int, void *, size_t);
static ssize_t (*next_write)(int, const void *, size_t);
static int (*next_fsync)(int);
static int (*next_fchmod)(int, mode_t);
static int (*next_ftruncate)(int, off_t);
static int (*next_rename)(const char *, const char *);
static int (*next_unlink)(const char *);
static int (*next_statx)(int, const char *, int, unsigned, struct statx *);

static long number_of(const char *name, long other) {
    const char *text = getenv(name);
    return text ? atol(text) : other;
}

static void __attribute__((constructor)) begin(void) {
    const char *path = getenv("BROKEN_COUNT"), *word = getenv("BROKEN_HOW");
    next_open = dlsym(RTLD_NEXT, "open");
    next_close = dlsym(RTLD_NEXT, "close");
    next_read = dlsym(RTLD_NEXT, "read");
    next_write = dlsym(RTLD_NEXT, "write");
    next_fsync = dlsym(RTLD_NEXT, "fsync");
    next_fchmod = dlsym(RTLD_NEXT, "fchmod");
    next_ftruncate = dlsym(RTLD_NEXT, "ftruncate");
    next_rename = dlsym(RTLD_NEXT, "rename");
    next_unlink = dlsym(RTLD_NEXT, "unlink");
    next_statx = dlsym(RTLD_NEXT, "statx");
    int file = path ? next_open(path, O_RDWR | O_CREAT, 0600) : -1;
    if (file >= 0 && next_ftruncate(file, sizeof *told) == 0) {
        void *kept = mmap(NULL, sizeof *told, PROT_READ | PROT_WRITE, MAP_SHARED, file, 0);
        told = kept == MAP_FAILED ? &before : kept;
        next_close(file);
    }
    at = number_of("BROKEN_AT", 0);
    error = number_of("BROKEN_ERROR", EIO);
    step = number_of("BROKEN_STEP", 0);
    streams = getenv("BROKEN_STREAMS") != NULL;
    how = word ? word[0] : 'k';
    ready = 1;
}

/* What comes at this call: 0 nothing, 'p' an end behind it, 'f' a failure, 'n' a write of no byte. */
static char turn(char kind, int file, const char *path) {
    if (!ready || (file >= 0 && file <= 2 && !streams) || atomic_fetch_add(&told->count, 1) + 1 != at)
        return 0;
    told->kind = kind;
    told->file = file;
    told->renamed = renamed;
    told->written = written;
    size_t length = path ? strlen(path) : 0, most = sizeof told->path - 1;
    if (path)
        strcpy(told->path, path + (length > most ? length - most : 0));
    if (how == 'k')
        kill(getpid(), SIGKILL);
    if (how == 'f')
        errno = error;
    return how;
}

#define BROKEN(type, kind, file, path, call) \
    do {                                     \
        char comes = turn(kind, file, path); \
        if (comes == 'f')                    \
            return -1;                       \
        type answer = call;                  \
        if (comes == 'p')                    \
            kill(getpid(), SIGKILL);         \
        return answer;                       \
    } while (0)

static size_t stepped(size_t size) {
    return step && size > (size_t)step ? (size_t)step : size;
}

static int renames(const char *from, const char *to) {
    int answer = next_rename(from, to);
    if (answer == 0)
        atomic_fetch_add(&renamed, 1);
    return answer;
}

static ssize_t writes(int file, const void *bytes, size_t size, char comes) {
    if (comes == 'n')
        return 0;
    ssize_t answer = next_write(file, bytes, stepped(comes == 'p' ? size / 2 : size));
    if (file == 1 && answer > 0)
        atomic_fetch_add(&written, answer);
    return answer;
}

int open(const char *path, int flags, ...) {
    va_list rest;
    va_start(rest, flags);
    mode_t mode = flags & O_CREAT ? va_arg(rest, mode_t) : 0;
    va_end(rest);
    BROKEN(int, 'o', -1, path, next_open(path, flags, mode));
}

int close(int file) {
    BROKEN(int, 'c', file, NULL, next_close(file));
}

ssize_t read(int file, void *bytes, size_t size) {
    BROKEN(ssize_t, 'r', file, NULL, next_read(file, bytes, stepped(size)));
}

ssize_t write(int file, const void *bytes, size_t size) {
    BROKEN(ssize_t, 'w', file, NULL, writes(file, bytes, size, comes));
}

int fsync(int file) {
    struct stat found;
    char kind = fstat(file, &found) == 0 && S_ISDIR(found.st_mode) ? 'd' : 's';
    BROKEN(int, kind, file, NULL, next_fsync(file));
}

int fchmod(int file, mode_t mode) {
    BROKEN(int, 'm', file, NULL, next_fchmod(file, mode));
}

int ftruncate(int file, off_t size) {
    BROKEN(int, 't', file, NULL, next_ftruncate(file, size));
}

int rename(const char *from, const char *to) {
    BROKEN(int, 'n', -1, to, renames(from, to));
}

int unlink(const char *path) {
    BROKEN(int, 'u', -1, path, next_unlink(path));
}

int statx(int folder, const char *path, int flags, unsigned mask, struct statx *found) {
    BROKEN(int, 'x', -1, path, next_statx(folder, path, flags, mask, found));
}
