// Makes one call of a program fail: the one whose number FAIL_AT has, counted from 1 over the calls that FAIL_WHAT names, which is
// `memory` for all allocations, or one of read, write, open, rename, link, unlink, fsync, flock, realpath, statx, fchmod and fcntl. It
// fails with the error whose number FAIL_ERROR has, and an allocation with ENOMEM. At its end the program writes into the file FAIL_COUNT
// how many of these calls it made. Where FAIL_SHORT is set, each read gives and each write takes one byte at most. A read of /proc is
// never counted. Where FAIL_DELAY is set, each open, rename, link and unlink is made after as many microseconds. It is loaded before
// the C library (LD_PRELOAD).
#define _GNU_SOURCE
#include <dlfcn.h>
#include <errno.h>
#include <fcntl.h>
#include <stdarg.h>
#include <stdio.h>
#include <stdlib.h>
#include <string.h>
#include <sys/file.h>
#include <sys/stat.h>
#include <unistd.h>

static long asked, fails_at = -1, delay;
static const char *what = "";
static int error, is_short;

static void begin(void) {
    const char *at = getenv("FAIL_AT"), *with = getenv("FAIL_ERROR");
    what = getenv("FAIL_WHAT") ? getenv("FAIL_WHAT") : "memory";
    error = with ? atoi(with) : EIO;
    is_short = getenv("FAIL_SHORT") != NULL;
    delay = getenv("FAIL_DELAY") ? atol(getenv("FAIL_DELAY")) : 0;
    fails_at = at ? atol(at) : 0;
}

static int fails(const char *call, int with) {
    if (fails_at < 0)
        begin();
    if (strcmp(call, what) != 0 || ++asked != fails_at)
        return 0;
    errno = with;
    return 1;
}

// A call that is made late.
static int fails_late(const char *call, int with) {
    int is_failed = fails(call, with);
    if (delay > 0)
        usleep((useconds_t)delay);
    return is_failed;
}

#define NEXT(name) ((__typeof__(&name))dlsym(RTLD_NEXT, #name))

void *malloc(size_t size) {
    static __typeof__(&malloc) next;
    if (!next)
        next = NEXT(malloc);
    return fails("memory", ENOMEM) ? NULL : next(size);
}

void *realloc(void *block, size_t size) {
    static __typeof__(&realloc) next;
    if (!next)
        next = NEXT(realloc);
    return fails("memory", ENOMEM) ? NULL : next(block, size);
}

void *aligned_alloc(size_t alignment, size_t size) {
    static __typeof__(&aligned_alloc) next;
    if (!next)
        next = NEXT(aligned_alloc);
    return fails("memory", ENOMEM) ? NULL : next(alignment, size);
}

int posix_memalign(void **block, size_t alignment, size_t size) {
    static __typeof__(&posix_memalign) next;
    if (!next)
        next = NEXT(posix_memalign);
    return fails("memory", ENOMEM) ? ENOMEM : next(block, alignment, size);
}

// Whether what is open is of the system itself, as the state of the process.
static int is_of_system(int file) {
    char link[32], name[8] = "";
    snprintf(link, sizeof link, "/proc/self/fd/%d", file);
    return readlink(link, name, sizeof name) >= 6 && memcmp(name, "/proc/", 6) == 0;
}

ssize_t read(int file, void *bytes, size_t size) {
    return !is_of_system(file) && fails("read", error) ? -1 : NEXT(read)(file, bytes, is_short && size > 1 ? 1 : size);
}

ssize_t write(int file, const void *bytes, size_t size) {
    return fails("write", error) ? -1 : NEXT(write)(file, bytes, is_short && size > 1 ? 1 : size);
}

ssize_t __write(int file, const void *bytes, size_t size) {
    return write(file, bytes, size);
}

int open(const char *path, int flags, ...) {
    va_list more;
    va_start(more, flags);
    mode_t mode = flags & O_CREAT ? va_arg(more, mode_t) : 0;
    va_end(more);
    return fails_late("open", error) ? -1 : NEXT(open)(path, flags, mode);
}

int rename(const char *from, const char *to) {
    return fails_late("rename", error) ? -1 : NEXT(rename)(from, to);
}

int link(const char *from, const char *to) {
    return fails_late("link", error) ? -1 : NEXT(link)(from, to);
}

int unlink(const char *path) {
    return fails_late("unlink", error) ? -1 : NEXT(unlink)(path);
}

int fsync(int file) {
    return fails("fsync", error) ? -1 : NEXT(fsync)(file);
}

int flock(int file, int how) {
    return fails("flock", error) ? -1 : NEXT(flock)(file, how);
}

char *realpath(const char *path, char *resolved) {
    return fails("realpath", error) ? NULL : NEXT(realpath)(path, resolved);
}

int statx(int folder, const char *path, int flags, unsigned int mask, struct statx *there) {
    return fails("statx", error) ? -1 : NEXT(statx)(folder, path, flags, mask, there);
}

int fchmod(int file, mode_t mode) {
    return fails("fchmod", error) ? -1 : NEXT(fchmod)(file, mode);
}

int fcntl(int file, int command, ...) {
    va_list more;
    va_start(more, command);
    void *argument = va_arg(more, void *);
    va_end(more);
    return fails("fcntl", error) ? -1 : NEXT(fcntl)(file, command, argument);
}

__attribute__((destructor)) static void tell(void) {
    const char *path = getenv("FAIL_COUNT");
    long count = asked;
    fails_at = 0;
    is_short = 0;
    FILE *file = path ? fopen(path, "w") : NULL;
    if (file) {
        fprintf(file, "%ld\n", count);
        fclose(file);
    }
}
